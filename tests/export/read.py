#!/usr/bin/env python3
"""A reader of comma-separated text that knows nothing of ours: Python's csv module. Holds an export against the lister's numbers.

    tests/export/read.py DEFINITION DATA [PROGRAM]

PROGRAM is `zarfolin` where none is named. It writes the text (`export`), the codebook (`show --format jsonl`) and the lister's lines
(`list --format lister`). The text is read by csv.reader, strict, and each field must be what the names and lines say. Written again by
csv.writer, which quotes where it must, the text must be the same to the byte, but where Python quotes a lone empty field. tests/cli/run
runs it. Ends with status 1 at the first difference, and if there was nothing to compare."""
import csv
import io
import json
import subprocess
import sys


def said(*words):
    return subprocess.run([program, *words], check=True, capture_output=True).stdout


def figure(number, decimals):
    """A scaled number by string alone: a digit or more before the point, the decimals behind it."""
    sign, digits = ('-', -number) if number < 0 else ('', number)
    text = str(digits).zfill(decimals + 1)
    return sign + (text[:-decimals] + '.' + text[-decimals:] if decimals else text)


def field(letter, rest, decimals):
    if letter == 'M':
        return ''
    if letter == 'S':
        return 'none' if rest == ['-'] else rest[0].replace(',', ';')
    return figure(int(rest[0]), decimals) if letter == 'N' else rest[0]


def same(what, found, wanted):
    if found != wanted:
        sys.exit('%s: the text has %r, due is %r' % (what, found, wanted))


definition, data = sys.argv[1:3]
program = (sys.argv[3:] + ['zarfolin'])[0]
text = said('export', definition, data, '-o', '-').decode('latin-1')
rows = [json.loads(line) for line in said('show', '--format', 'jsonl', definition).splitlines()]
decimals = {row['ident']: row['decimals'] for row in rows}
records = {}
for line in said('list', '--format', 'lister', definition, data).decode('latin-1').split('\n')[:-2]:
    number, ident, letter, *rest = line.split(' ', 3)
    records.setdefault(int(number), []).append(field(letter, rest, decimals[int(ident)]))
names = [row['name'] for row in rows]
if open(definition, 'rb').read(5) == b'<?xml':
    # Names of a definition in XML are exported in UTF-8, whatever else the text holds.
    names = [name.encode('utf-8').decode('latin-1') for name in names]
due = [names] + [records[number] for number in sorted(records)]
found = list(csv.reader(io.StringIO(text, newline=''), strict=True))
# A line of one empty field is an empty line, which Python reads as no field.
found = [line or [''] for line in found]
same('lines', len(found), len(due))
for number, (line, wanted) in enumerate(zip(found, due)):
    same('line %d' % (number + 1), line, wanted)
again = io.StringIO(newline='')
csv.writer(again, lineterminator='\r\n').writerows(due)
same('written again', text, again.getvalue() if len(rows) > 1 else again.getvalue().replace('""\r\n', '\r\n'))
if len(due) < 2:
    sys.exit('nothing to compare')
print('%s: %d lines of %d fields, %d bytes: as the lister says' % (data, len(due), len(rows), len(text)))
