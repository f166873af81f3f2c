#!/usr/bin/env python3
"""Comma-separated text written anew by another program, Python's csv module, with every field in quotes: what some spreadsheets give back.

    tests/export/quoted.py <TEXT >QUOTED

Bytes are kept (Latin-1 both ways). tests/cli/run imports what it writes."""
import csv
import io
import sys

text = sys.stdin.buffer.read().decode('latin-1')
out = io.StringIO(newline='')
# A line of one empty field is an empty line, which Python reads as no field.
lines = [line or [''] for line in csv.reader(io.StringIO(text, newline=''), strict=True)]
csv.writer(out, lineterminator='\r\n', quoting=csv.QUOTE_ALL).writerows(lines)
sys.stdout.buffer.write(out.getvalue().encode('latin-1'))
