#!/usr/bin/env python3
"""Gives every line of comma-separated text CR LF at its end, as zarfolin import asks for; line ends inside quotes stay as they are.

    tests/export/ends.py <TEXT >ENDED

LibreOffice on Linux and on the Mac, Gnumeric and csvkit write LF alone (docs/SPREADSHEETS.md)."""
import re
import sys

text = sys.stdin.buffer.read()
# A quoted field, or a line end that is not in one.
sys.stdout.buffer.write(re.sub(rb'"[^"]*"|\r\n|\n|\r', lambda m: m[0] if m[0][:1] == b'"' else b'\r\n', text))
