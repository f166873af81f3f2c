#!/usr/bin/env python3
"""A reader of matrices that knows nothing of ours: Python's struct. Holds a matrix against the lister's numbers.

    tests/matrix/read.py DEFINITION DATA [PROGRAM]

PROGRAM is `zarfolin` where none is named. It writes the matrix (`matrix`), the codebook (`show --format jsonl`) and the lister's lines
(`list --format lister`); header, summaries, presence bytes and values are read here by struct alone, and each must be what the lines
say: a number of the lines is divided by its power of ten as Python divides whole numbers, which rounds once, and so are compared to the
bit. tests/cli/run runs it. Ends with status 1 at the first difference, and if there was nothing to compare."""
import json
import struct
import subprocess
import sys


def said(*words):
    return subprocess.run([program, *words], check=True, capture_output=True).stdout


def columns(codebook):
    """Ident, category (None where the row has one column), and the power of ten, in the order of the rows."""
    for row in map(json.loads, codebook.splitlines()):
        listed = {line['value'] for line in row['values']}
        ranged = set(range(row['from'], row['to'] + 1)) if 'from' in row else set()
        if row['type'] == 'MULTIPLE':
            for category in sorted(listed | ranged):
                yield row['ident'], category, 1
        elif row['type'] != 'CHARACTER':
            yield row['ident'], None, 10 ** row['decimals']


def records(lines):
    """Of each record what each ident holds: None, or a number, or a set."""
    of = {}
    for line in lines.decode('latin-1').splitlines()[:-1]:
        number, ident, letter, *rest = line.split(' ', 3)
        if letter == 'M':
            value = None
        elif letter == 'S':
            value = set() if rest == ['-'] else {int(x) for x in rest[0].split(',')}
        else:
            value = rest[0] if letter == 'T' else int(rest[0])
        of.setdefault(int(number), {})[int(ident)] = value
    return [of[number] for number in sorted(of)]


def due(record, column):
    ident, category, power = column
    value = record[ident]
    if value is None:
        return None
    return float(category in value) if category is not None else value / power


def same(what, found, wanted):
    if found != wanted:
        sys.exit('%s: the matrix has %r, the lister says %r' % (what, found, wanted))


def bits(value):
    return struct.pack('<d', value)


definition, data = sys.argv[1:3]
program = (sys.argv[3:] + ['zarfolin'])[0]
matrix = said('matrix', definition, data, '-o', '-')
of_table = list(columns(said('show', '--format', 'jsonl', definition)))
of_data = records(said('list', '--format', 'lister', definition, data))
r, c, summaries, presence, values, total = struct.unpack_from('<6I', matrix)
same('header', (r, c, summaries, presence, values, total),
     (len(of_data), len(of_table), 24, 24 + 24 * c, 24 + 24 * c + r * c, len(matrix)))
for k, column in enumerate(of_table):
    present = []
    for n, record in enumerate(of_data):
        cell, what = n * c + k, 'record %d, column %d' % (n + 1, k)
        value = due(record, column)
        same(what, (matrix[presence + cell], matrix[values + 8 * cell:values + 8 * cell + 8]),
             (0, bytes(8)) if value is None else (1, bits(value)))
        present += [] if value is None else [value]
    found = struct.unpack_from('<Q2d', matrix, summaries + 24 * k)
    same('summary %d' % k, (found[0], bits(found[1]), bits(found[2])),
         (len(present), bits(min(present, default=0.0)), bits(max(present, default=0.0))))
if r * c == 0:
    sys.exit('nothing to compare')
print('%s: %d records, %d columns, %d bytes: as the lister says' % (data, r, c, total))
