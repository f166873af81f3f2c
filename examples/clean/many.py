#!/usr/bin/env python3
"""Makes many.sss, a panel's definition of 512 variables as three editors left it: `examples/clean/many.py >examples/clean/many.sss`.

Every number below is a rule of thumb, none is drawn: the same file comes out each time. tests/c/run holds the stored file against it."""
import sys

WAVES = ['March', 'June', 'September', 'December']
ASKED = ['Water', 'Power', 'Roads', 'Schools', 'Parks', 'Clinics', 'Buses', 'Libraries']


def gap(v):
    """What the editors left between two statements: the first indents, the second breaks lines, the third writes it all in one line."""
    return ('\r\n    ', '\n', ' ')[v % 3]


def variable(v, start):
    """One variable, and where the next one starts."""
    label = '%s, %s' % (ASKED[v % 8], WAVES[v // 8 % 4]) + ('{NL}as asked in {22}wave %d{22}' % v if v % 7 == 0 else '')
    kind = v % 5
    ident = '%04d' % v if v % 3 == 1 else '%d' % v
    head = ['VARIABLE %s' % ident, 'NAME "V%d"' % v, 'LABEL "%s"' % label]
    if v % 11 == 0:
        head.append('NOTE "asked again in %s"' % WAVES[v % 4])
    if kind == 0:
        lines = ['1 "good"', '2 "fair"', '3 "bad"', '9 "no answer"SPECIAL']
        width, rest = 1, ['TYPE SINGLE', 'POSITION %d' % start, 'VALUES', *lines, 'END VALUES']
    elif kind == 1:
        lines = ['0.00 TO 499.99WITH', '0999.00 "refused" SPECIAL']
        width, rest = 6, ['TYPE QUANTITY', 'POSITION %d TO %d' % (start, start + 5), 'VALUES', *lines, 'END VALUES']
    elif kind == 2:
        of = ' OF 2' if v % 2 else ''
        width, rest = 8, ['TYPE MULTIPLE', 'POSITION %d TO %d' % (start, start + 7), 'SPREAD 4' + of, 'VALUES', '1 TO 20', 'END VALUES']
    elif kind == 3:
        width, rest = 12, ['TYPE CHARACTER', 'POSITION %d TO %d' % (start, start + 11), 'SIZE 012']
    else:
        width, rest = 1, ['TYPE LOGICAL', 'POSITION %d' % start]
    text = gap(v).join(head + rest + ['END VARIABLE'])
    if v % 3 == 1:
        text = text.replace('VARIABLE', 'variable').replace('POSITION', 'Position')
    return text + ('' if v % 13 else ' <checked %s>' % WAVES[v % 4]) + '\r\n', start + width


parts = ['sss version 1.1\r\nSTANDARD NAMES\r\nUSER "panel office"\r\nDATE "1 November 2026"\r\nSURVEY TITLE "City panel"\r\nRECORD p\r\n']
start = 1
for number in range(1, 513):
    written, start = variable(number, start)
    parts.append(written)
parts.append('END RECORD END SURVEY END SSS\r\n\x1a')
sys.stdout.buffer.write(''.join(parts).encode('ascii'))
