#!/usr/bin/env python3
"""The vectors of the definition reader: definitions, sound and refused, with the answer that document 01 and its readings give each.

    python3 cases.py             writes `stdin` (the cases) and `stdout` (the answers) beside this file
    python3 cases.py --check     says whether they are what this file makes
    python3 cases.py --titles    lists the cases by number

Every answer is derived here by hand: a refusal's place is the `@` in its text; a sound definition's table is put together from the
columns that stand with the case, and its text places and lengths from the `~` around each text (NAME, LABEL and the lines of a
variable, in the order of the file; texts of the heading and of notes have none). No reader is run. The independent Rust readers
are held against the same two files by rust/compare/tests/vectors.rs.

stdin:  for each case a line `LEN ROOM` (bytes of the definition, numbers of table lent), or `LEN ROOM PLACE LENGTH` for a text of it
        that is decoded into a list of ROOM numbers, or `LEN ROOM OUTPUT` where it is written clean into OUTPUT bytes, with what it
        yields in a table of ROOM numbers; LEN bytes, LF.
stdout: `case N: read V E kept` and a line with the numbers of the table, or `case N: NUMBER PLACE kept`. `kept` says that
        every other number of the table holds what it held before; the program would print `touched`. Of a text: `case N: text COUNT
        kept` and a line with its signs, a break as 256, or `case N: NUMBER kept`. Of a clean text: `case N: clean LENGTH kept` and
        the text, or `case N: NUMBER PLACE kept`; `kept` then says it of the output's other bytes.
"""
import os
import sys

ROOM = 120  # room of a refused definition where the case says nothing: more than its table would need
CASES = []
HEADER, ROW, LINE = 6, 20, 4  # numbers of the header, of a row, of a line


def size(rows, lines=0):
    """The numbers of a table of so many rows and lines."""
    return HEADER + ROW * rows + LINE * lines


def bare(text):
    return text.replace("@", "").replace("~", "").encode("latin-1")


def refused(title, number, text, room=ROOM):
    """`@` stands before the byte at fault; there is none where the place is 0 by rule (10)."""
    plain = text.replace("~", "")
    place = 0 if number == 10 else plain.index("@")
    assert plain.count("@") == (0 if number == 10 else 1), title
    CASES.append((title, bare(text), room, f"{number} {place} kept\n"))


def row(ident, kind, start, finish, w, dec=0, point=0, sub=(0, 0), rng=None, lines=(), use=0, filter=0):
    """Use and filter are 0 in a 1.1 definition, which gives none."""
    columns = [ident, kind, start, finish, w, dec, point, *sub, *((1, *rng) if rng else (0, 0, 0))]
    return columns, [(line, 0) if isinstance(line, int) else line for line in lines], [use, filter]


def sound(title, text, *rows, room=None, mark=11):
    """Each text between `~`; `room` numbers are lent, five more than needed where the case says nothing; mark 12 for XML."""
    plain = text.replace("@", "")
    texts, at = [], 0
    parts = plain.split("~")
    assert len(parts) % 2 == 1, title
    for i, part in enumerate(parts):
        if i % 2 == 1:
            texts.append((at, len(part)))
        at += len(part)
    texts = iter(texts)
    variables, values, before = [], [], 0
    for columns, lines, uses in rows:
        variables += columns + [before, len(lines), *next(texts), *next(texts), *uses]
        for value, special in lines:
            values += [value, special, *next(texts)]
        before += len(lines)
    assert next(texts, None) is None, title
    header = [mark, len(rows), before, max(c[3] for c, _, _ in rows), HEADER, size(len(rows))]
    table = header + variables + values
    assert len(table) == size(len(rows), before), title
    needed = len(table)
    answer = f"read {len(rows)} {before} kept\n" + " ".join(map(str, table)) + "\n"
    CASES.append((title, bare(text), needed + 5 if room is None else needed + room, answer))


SINGLE, MULTIPLE, QUANTITY, CHARACTER, LOGICAL = 1, 2, 3, 4, 5
HEAD = "SSS VERSION 1.1 SURVEY RECORD R "
TAIL = " END RECORD END SURVEY END SSS"
NAMED = 'VARIABLE 1 NAME "~n~" LABEL "~l~" TYPE '
TRUTH = NAMED + "LOGICAL POSITION 1 END VARIABLE"
LAST = TRUTH + TAIL
ONE = row(1, LOGICAL, 1, 1, 1)


def whole(text):
    return HEAD + text + TAIL


def one(text):
    """One variable, from behind TYPE on; a mark at the end of the text stands at END."""
    return whole(NAMED + text + " END VARIABLE").replace("@ END", " @END")


def values(text, kind="SINGLE", position="1 TO 9"):
    return one(f"{kind} POSITION {position} VALUES {text} END VALUES")


def quantity(text, position="1 TO 20"):
    return values(text, "QUANTITY", position)


# ---------------------------------------------------------------------------------------------- document 01, source document 003

SAMPLE = """SSS VERSION 1.1 SURVEY RECORD R
VARIABLE 1 NAME "~desk~" LABEL "~Desk~" TYPE SINGLE POSITION 1 TO 2
VALUES 1 TO 12 END VALUES END VARIABLE
VARIABLE 2 NAME "~seen~" LABEL "~Seen~" TYPE MULTIPLE POSITION 3 TO 6
VALUES 1 "~a~" 2 "~b~" 4 "~d~" END VALUES END VARIABLE
VARIABLE 3 NAME "~wait~" LABEL "~Wait~" TYPE QUANTITY POSITION 7 TO 11
VALUES -1.0 TO 99.5 END VALUES END VARIABLE
END RECORD END SURVEY END SSS
"""
SAMPLE_ROWS = (
    row(1, SINGLE, 1, 2, 2, rng=(1, 12)),
    row(2, MULTIPLE, 3, 6, 4, lines=(1, 2, 4)),
    row(3, QUANTITY, 7, 11, 4, 1, 1, rng=(-10, 995)),
)
sound("document 01's sample", SAMPLE, *SAMPLE_ROWS)
sound("document 01's sample, exactly enough room", SAMPLE, *SAMPLE_ROWS, room=0)
refused("document 01's sample, room for one number too few", 10, SAMPLE, size(3, 3) - 1)
refused("document 01's sample, no room at all", 10, SAMPLE, 0)
sound("document 01's sample with CR LF", SAMPLE.replace("\n", "\r\n"), *SAMPLE_ROWS)

ATTRACTIONS = """
                             1 "~Sherwood Forest~"
                            2 "~Nottingham Castle~"
                             3 "~{"}Friar Tuck{"} Restaurant~"
                            4 "~{"}Maid Marion{"} Cafe~"
                            5 "~Mining museum~"
                            9 "~Other~"
"""
HOUSE = (
    """SSS
VERSION 1.1
DATE "15/JUL/1997"
TIME "18:32"
ORIGIN "Export 1.42"
STANDARD NAMES
SURVEY
       TITLE "Historic House Exit Survey"
       RECORD V
              VARIABLE 1
                     NAME "~Q1~"
                     LABEL "~Number of visits~"
                     TYPE SINGLE
                     POSITION 1
                     VALUES
                             1 "~First visit~"
                            2 "~Visited before within the year~"
                             3 "~Visited before that~"
                     END VALUES
              END VARIABLE
              VARIABLE 2
                     NAME "~Q2~"
                     LABEL "~Attractions visited~"
                     TYPE MULTIPLE
                     POSITION 2 TO 10
                     VALUES"""
    + ATTRACTIONS
    + """                     END VALUES
              END VARIABLE
              VARIABLE 3
                     NAME "~Q3~"
                     LABEL "~Other attractions visited~"
                     TYPE CHARACTER
                     POSITION 11 TO 40
                     SIZE 30
              END VARIABLE
              VARIABLE 4
                     NAME "~Q4~"
                     LABEL "~Two favourite attractions visited~"
                     TYPE MULTIPLE
                     POSITION 41 TO 42
                     SPREAD 2
                                   <2 subfields of width 1>
                     NOTE "same answer list as Q2"
                     VALUES"""
    + ATTRACTIONS
    + """                     END VALUES
              END VARIABLE
       VARIABLE 5
                     NAME "~Q5~"
                     LABEL "~Miles travelled~"
                     TYPE QUANTITY
                     POSITION 43 TO 45
                     VALUES
                            1 TO 499
                            @500 "~500 or more~"
                            999 "~Not stated~" SPECIAL
                     END VALUES
              END VARIABLE
              VARIABLE 6
                     NAME "~Q6~"
                     LABEL "~Enjoyed visit~"
                     TYPE LOGICAL
                     POSITION 46
              END VARIABLE
       END RECORD
END SURVEY
END SSS
"""
)
refused("003's example: WITH is missing", 2, HOUSE, 300)
sound(
    "003's example once WITH is put in",
    HOUSE.replace("1 TO 499", "1 TO 499 WITH"),
    row(1, SINGLE, 1, 1, 1, lines=(1, 2, 3)),
    row(2, MULTIPLE, 2, 10, 9, lines=(1, 2, 3, 4, 5, 9)),
    row(3, CHARACTER, 11, 40, 30),
    row(4, MULTIPLE, 41, 42, 1, sub=(2, 1), lines=(1, 2, 3, 4, 5, 9)),
    row(5, QUANTITY, 43, 45, 3, rng=(1, 499), lines=(500, (999, 1))),
    row(6, LOGICAL, 46, 46, 1),
)
sound(
    "003's values block with two specials in the range",
    values('1 TO 99 WITH 98 "~Don\'t Know~" SPECIAL 99 "~Refused~" SPECIAL'),
    row(1, SINGLE, 1, 9, 2, rng=(1, 99), lines=((98, 1), (99, 1))),
)
sound(
    "003's spread with its comment",
    one('MULTIPLE POSITION 1 TO 15 SPREAD 5 OF 3 <5 subfields of width 3> VALUES 1 "~Yes~" 2 "~No~" 9 "~Refused~" SPECIAL END VALUES'),
    row(1, MULTIPLE, 1, 15, 1, sub=(5, 3), lines=(1, 2, (9, 1))),
)

# ---------------------------------------------------------------------------------------------- tokens: case, spaces, dropped bytes

sound(
    "no space anywhere",
    'SSSVERSION1.1SURVEYRECORDRVARIABLE1NAME"~n~"LABEL"~l~"TYPESINGLEPOSITION21TO24VALUES1TO9WITH1"~x~"SPECIAL2"~y~"ENDVALUES'
    "ENDVARIABLEENDRECORDENDSURVEYENDSSS",
    row(1, SINGLE, 21, 24, 1, rng=(1, 9), lines=((1, 1), 2)),
)
sound("small letters", whole(TRUTH).lower(), ONE)
sound(
    "letters of either case",
    'sSs VeRsIoN 1.1 sUrVeY rEcOrD r vArIaBlE 1 nAmE "~n~" lAbEl "~l~" tYpE cHaRaCtEr pOsItIoN 1 tO 5 sIzE 3 eNd vArIaBlE '
    "eNd ReCoRd EnD SuRvEy eNd sSs",
    row(1, CHARACTER, 1, 5, 3),
)
sound("spaces galore", whole("   " + TRUTH.replace(" ", "     ")).replace("END", "  END   ") + "   ", ONE)
sound(
    "dropped bytes inside words and numbers",
    'S\0S\nS V\r\nERSION 1\t.\n1 S\x1fURVE\x01Y REC\r\nORD\nR VARIABLE 1\r\n2 NA\nME "~n~" LA\tBEL "~l~" TY\nPE SIN\nGLE POSITION 1\n0 T\nO 2\r1 '
    "VAL\nUES 1\n T\nO 1\r\n2 E\nND VALUES END VARI\nABLE E\nND RECORD END SUR\nVEY END S\r\nSS",
    row(12, SINGLE, 10, 21, 2, rng=(1, 12)),
)
sound("a line end is no end of a number: 1 LF 1 is 11", values("1 TO 1\n1"), row(1, SINGLE, 1, 9, 2, rng=(1, 11)))
sound(
    "dropped bytes inside strings count in places and lengths",
    whole('VARIABLE 1 NAME "~\r\nn~" LABEL "~l\r\n~" TYPE SINGLE POSITION 1 VALUES 1 "~\0~" 2 "~a\nb~" END VALUES END VARIABLE'),
    row(1, SINGLE, 1, 1, 1, lines=(1, 2)),
)
sound("dropped bytes before SSS", "\r\n\t\0" + whole(TRUTH), ONE)
sound("VERSION's number across line ends", HEAD.replace("1.1", "1\r\n.\r\n1\n") + LAST, ONE)
sound("what follows END SSS is ignored", whole(TRUTH) + ' SSS " < { \x7f\xff VARIABLE 1', ONE)
sound("what follows END SSS may stand right behind it", whole(TRUTH) + "SSS", ONE)
refused("an empty text", 2, "@")
refused("nothing but dropped bytes", 2, "\r\n\t@")
refused("a space before SSS", 2, "@ " + whole(TRUTH))
refused("dropped bytes, then a space before SSS", 2, "\r\n@ " + whole(TRUTH))
refused("a comment before SSS", 2, "@<c>" + whole(TRUTH))
refused("SSS that breaks off", 2, "@SS")
refused("SSS that is another word", 2, "@SST VERSION 1.1")
refused("a space inside SSS", 2, "@SS S VERSION 1.1")
refused("nothing behind SSS", 2, "SSS@")
refused("nothing but dropped bytes and spaces behind SSS", 2, "SSS \r\n @")
refused("a space inside VERSION", 2, "SSS @VER SION 1.1 SURVEY")
refused("a comment before VERSION", 2, "SSS @<c> VERSION 1.1 SURVEY")
refused("a note before VERSION", 2, 'SSS @NOTE "x" VERSION 1.1 SURVEY')
refused("a comment before VERSION's number", 2, "SSS VERSION @<c> 1.1 SURVEY")
refused("no number behind VERSION", 2, "SSS VERSION @SURVEY")
refused("nothing behind VERSION", 2, "SSS VERSION\n@")
refused("a comment inside a keyword", 2, whole("@VARI<c>ABLE 1"))
refused("a space inside a keyword", 2, whole("@VARI ABLE 1"))
refused("a space inside a number", 2, whole("VARIABLE 1 @2 NAME"))
refused("a comment inside a number", 2, one("LOGICAL POSITION 1<c>@2"))
refused("a keyword that breaks off at the end", 2, "SSS VERSION 1.1 @SURVE")
refused("a keyword with dropped bytes that breaks off at the end", 2, "SSS VERSION 1.1 \r\n@SUR\nV\n")
refused("a byte of no class: #", 2, "SSS VERSION 1.1 @# SURVEY")
refused("byte 127 is no space", 2, "SSS VERSION 1.1 @\x7fSURVEY")
refused("byte 160 is no space", 2, "SSS VERSION 1.1 SURVEY @\xa0RECORD R")
refused("byte 255 stands for nothing", 2, HEAD + "@\xff" + LAST)
refused("an angle that closes nothing", 2, HEAD + "@>" + LAST)
refused("a brace outside strings", 2, HEAD + "@}" + LAST)
refused("an open brace outside strings", 2, HEAD + "@{NL}" + LAST)
refused("a string where a word is due", 2, HEAD + '@"VARIABLE" 1')
refused("an unclosed string where a word is due is 2, not 3", 2, HEAD + '@"VARIABLE 1')

# ---------------------------------------------------------------------------------------------- VERSION

for text in ("1.0", "2.0", "1.10", "01.1", "1.1.", "1", ".", "-", "+1.1", "1.1-", "11"):
    refused(f"version {text}", 4, f"SSS VERSION @{text} SURVEY")
refused("version 1 .1: the number ends at the space", 4, "SSS VERSION @1 .1 SURVEY")
refused("version 1.0 and nothing more", 4, "SSS VERSION @1.0")
refused("version 1.0 before an unclosed comment", 4, "SSS VERSION @1.0 <")
refused("version 1.0 across dropped bytes", 4, "SSS VERSION \n@1\n.\n0")
sound("no space around the version", "SSSVERSION1.1" + whole(TRUTH)[len("SSS VERSION 1.1 "):], ONE)
sound("a comment right behind the version", "SSS VERSION 1.1<c>" + whole(TRUTH)[len("SSS VERSION 1.1 "):], ONE)

# ---------------------------------------------------------------------------------------------- the heading

BODY = "SURVEY RECORD R " + LAST
sound("a heading in one order", 'SSS VERSION 1.1 DATE "d" TIME "t" ORIGIN "o" USER "u" STANDARD NAMES ' + BODY, ONE)
sound("a heading in another order", 'SSS VERSION 1.1 STANDARD NAMES USER "u" ORIGIN "" TIME "t" DATE "{NL}" ' + BODY, ONE)
sound("two statements of the heading, no spaces", 'SSSVERSION1.1USER"u"STANDARDNAMES' + BODY, ONE)
sound("notes and comments in the heading", 'SSS VERSION 1.1 NOTE "n" <c> NOTE "" DATE <c> "d" NOTE "n" STANDARD <c> NAMES <c> NOTE "n" ' + BODY, ONE)
sound("TITLE", 'SSS VERSION 1.1 SURVEY TITLE "A {"}title{"}" RECORD z ' + LAST, ONE)
for word in ("DATE", "TIME", "ORIGIN", "USER"):
    refused(f"{word} twice", 2, f'SSS VERSION 1.1 {word} "a" @{word} "b" ' + BODY)
refused("STANDARD NAMES twice", 2, "SSS VERSION 1.1 STANDARD NAMES @STANDARD NAMES " + BODY)
refused("DATE twice with others between", 2, 'SSS VERSION 1.1 DATE "a" USER "u" NOTE "n" @DATE "b" ' + BODY)
refused("an empty DATE counts as given", 2, 'SSS VERSION 1.1 DATE "" @DATE "" ' + BODY)
refused("a second DATE is 2 at its word before its text is read", 2, 'SSS VERSION 1.1 DATE "a" @DATE "b')
refused("a second STANDARD is 2 at its word whatever follows", 2, "SSS VERSION 1.1 STANDARD NAMES @STANDARD <")
refused("STANDARD with another word", 2, "SSS VERSION 1.1 STANDARD @NAME " + BODY)
refused("a note inside STANDARD NAMES", 2, 'SSS VERSION 1.1 STANDARD @NOTE "x" NAMES ' + BODY)
refused("DATE without its string", 2, "SSS VERSION 1.1 DATE @SURVEY")
refused("DATE without quotes", 2, "SSS VERSION 1.1 DATE @15 " + BODY)
refused("DATE behind SURVEY", 2, 'SSS VERSION 1.1 SURVEY @DATE "a" RECORD R ' + LAST)
refused("a word that is none", 2, 'SSS VERSION 1.1 @COLOUR "red" ' + BODY)
refused("VERSION twice", 2, "SSS VERSION 1.1 @VERSION 1.1 " + BODY)
refused("TITLE before SURVEY", 2, 'SSS VERSION 1.1 @TITLE "t" ' + BODY)
refused("TITLE twice", 2, 'SSS VERSION 1.1 SURVEY TITLE "t" @TITLE "u" RECORD R ' + LAST)
refused("TITLE behind RECORD", 2, HEAD + '@TITLE "t" ' + LAST)
refused("RECORD with a digit", 2, "SSS VERSION 1.1 SURVEY RECORD @1 " + LAST)
refused("RECORD with a string", 2, 'SSS VERSION 1.1 SURVEY RECORD @"R" ' + LAST)
refused("RECORD with two letters", 2, "SSS VERSION 1.1 SURVEY RECORD A@B " + LAST)
refused("RECORD with a letter above 127", 2, "SSS VERSION 1.1 SURVEY RECORD @\xc9 " + LAST)
refused("RECORD takes the N of NOTE for its letter", 2, 'SSS VERSION 1.1 SURVEY RECORD N@OTE "x" R ' + LAST)
refused("RECORD takes the V of VARIABLE for its letter", 2, "SSS VERSION 1.1 SURVEY RECORD V@ARIABLE 1")
refused("RECORD and nothing more", 2, "SSS VERSION 1.1 SURVEY RECORD @")
refused("no variable", 2, HEAD + "@END RECORD END SURVEY END SSS")

# ---------------------------------------------------------------------------------------------- notes

NOTED = (
    'SSS VERSION 1.1 # SURVEY # TITLE "t" # RECORD R # VARIABLE 1 # NAME "~n~" # LABEL "~l~" # TYPE MULTIPLE # POSITION 1 TO 4 # SPREAD 2 # '
    'VALUES # 1 TO 9 WITH # 1 "~x~" SPECIAL # 2 "~y~" # END VALUES # END VARIABLE # END RECORD # END SURVEY # END SSS #'
)
NOTED_ROW = row(1, MULTIPLE, 1, 4, 1, sub=(2, 2), rng=(1, 9), lines=((1, 1), 2))
sound("a note between all statements", NOTED.replace("#", 'NOTE "{NL}<"'), NOTED_ROW)
sound("two notes between all statements", NOTED.replace("#", 'NOTE "" NOTE"TO"'), NOTED_ROW)
sound("notes before a range and END of a block", values('NOTE "a" 1 TO 5 NOTE "b" NOTE "c"'), row(1, SINGLE, 1, 9, 1, rng=(1, 5)))
refused("NOTE without its string", 2, "SSS VERSION 1.1 NOTE @SURVEY")
refused("a note before TO ends POSITION", 2, one('LOGICAL POSITION 1 NOTE "x" @TO 4'))
refused("a note before OF ends SPREAD", 2, one('MULTIPLE POSITION 1 TO 4 SPREAD 2 NOTE "x" @OF 2 VALUES 1 TO 9 END VALUES'))
refused("a note before WITH ends the range", 2, values('1 TO 5 NOTE "x" @WITH 6 "y"'))
refused("a note before SPECIAL ends the line", 2, values('1 "x" NOTE "n" @SPECIAL'))
refused("a note between a value and TO", 2, values('1 @NOTE "x" TO 5'))
refused("a note between a value and its text", 2, values('1 @NOTE "x" "y"'))
refused("a note between WITH and END is no line", 2, values('1 TO 5 WITH NOTE "x" @'))
refused("a note inside END VARIABLE", 2, whole(NAMED + 'LOGICAL POSITION 1 END @NOTE "x" VARIABLE'))
refused("a note before a type", 2, whole('VARIABLE 1 NAME "n" LABEL "l" TYPE @NOTE "x" LOGICAL'))
refused("a note before an ident", 2, whole('VARIABLE @NOTE "x" 1'))
refused("a note before a POSITION's number", 2, one('LOGICAL POSITION @NOTE "x" 1'))

# ---------------------------------------------------------------------------------------------- comments

COMMENTED = (
    'SSS VERSION 1.1#DATE#"d"#STANDARD#NAMES#SURVEY#TITLE#"t"#RECORD#R#VARIABLE#1#NAME#"~n~"#LABEL#"~l~"#TYPE#MULTIPLE#POSITION#1#TO#4#'
    'SPREAD#2#OF#2#VALUES#1#TO#9#WITH#1#"~x~"#SPECIAL#2#"~y~"#END#VALUES#END#VARIABLE#END#RECORD#END#SURVEY#END#SSS'
)
sound("a comment wherever a space may stand", COMMENTED.replace("#", "<c>"), NOTED_ROW)
sound("comments with strings and comments in them", COMMENTED.replace("#", ' <"<" {x} <TO "}>{"}{NL}{4a}"> > <>'), NOTED_ROW)
sound("comments with dropped bytes", COMMENTED.replace("#", "\r\n<\r\n\"\n{\n4\n1\n}\n\">\n"), NOTED_ROW)
sound("a comment of 32 levels", HEAD + "<" * 32 + ">" * 32 + LAST, ONE)
sound("32 levels, with a string full of angles in the deepest", HEAD + "<" * 32 + '"' + "<" * 40 + '"' + ">" * 32 + LAST, ONE)
sound("32 levels, 40 comments beside each other", HEAD + "<" * 31 + "<>" * 40 + ">" * 31 + LAST, ONE)
refused("level 33", 3, HEAD + "<" * 32 + "@<" + ">" * 33 + LAST)
refused("level 33 is met before the end shows that all are open", 3, HEAD + "<" * 32 + "@<" + "<" * 5)
refused("level 33 behind texts and closed comments", 3, HEAD + '<a "b" <c> ' + "<" * 31 + "@< > " + LAST)
refused("an unclosed comment", 3, HEAD + "@<c " + LAST)
refused("an unclosed comment in a comment: the outermost mark", 3, HEAD + "@<a <b> <c " + LAST)
refused("an unclosed string in a comment: the comment", 3, HEAD + '@<a "b> ' + TRUTH.replace('"', ""))
refused("the second of two comments is open", 3, HEAD + "<a> @<b <c>")
refused("an unclosed comment that is nothing else", 3, "SSS VERSION 1.1 @<")
refused("a bad form in a comment's string", 3, HEAD + '<a "@{x}" > ' + LAST)
refused("a bad form in a comment's string is met before the open comment", 3, HEAD + '<a <b "@{x')
refused("an unclosed comment between a keyword and its number", 3, whole("VARIABLE @<"))
refused("an unclosed comment between END and VARIABLE", 3, HEAD + NAMED + "LOGICAL POSITION 1 END @<VARIABLE")
sound("an unclosed comment behind END SSS", whole(TRUTH) + "<", ONE)

# ---------------------------------------------------------------------------------------------- strings

sound(
    "every brace form",
    whole(
        'VARIABLE 1 NAME "~{"}~" LABEL "~{{}{NL}{41}{4a4B}{0D0a00fF}}{"}~" TYPE SINGLE POSITION 1 '
        'VALUES 1 "~}~" 2 "~}}{{}}~" 3 "~<>~" 4 "~\x7f\xff~" 5 "~~" END VALUES END VARIABLE'
    ),
    row(1, SINGLE, 1, 1, 1, lines=(1, 2, 3, 4, 5)),
)
sound(
    "dropped bytes inside brace forms",
    whole('VARIABLE 1 NAME "~{\n"\r}~" LABEL "~{N\nL\0}{\t4\n1\r4\n2}{\n{\n}~" TYPE LOGICAL POSITION 1 END VARIABLE'),
    ONE,
)
for form in ("{}", "{4}", "{414}", "{nl}", "{Nl}", "{N}", "{NLX}", "{ NL}", "{NL }", "{G0}", "{0G}", "{ 41}", "{41 42}", '{""}', '{"x', "{{{}", "{{x", "{x", "{<}", "{-}"):
    refused(f"bad form {form}", 3, HEAD + f'VARIABLE 1 NAME "a@{form}" LABEL "l"')
refused("a bad form behind a good one", 3, HEAD + 'VARIABLE 1 NAME "{41}@{4" LABEL "l"')
refused("a bad form with dropped bytes stands at its brace", 3, HEAD + 'VARIABLE 1 NAME "\n@{\n4\n}"')
refused("a bad form in a note", 3, 'SSS VERSION 1.1 NOTE "@{}"')
refused("a bad form in the heading", 3, 'SSS VERSION 1.1 USER "x@{q}"')
refused("a bad form in a title", 3, 'SSS VERSION 1.1 SURVEY TITLE "@{e}"')
refused("a bad form in a line's text, before its value is judged", 3, values('0 "@{e}"'))
refused("an unclosed string in NAME", 3, HEAD + 'VARIABLE 1 NAME @"n LABEL TYPE LOGICAL')
refused("an unclosed string in LABEL", 3, HEAD + 'VARIABLE 1 NAME "n" LABEL @"l')
refused("an unclosed string in DATE", 3, 'SSS VERSION 1.1 DATE @"d SURVEY')
refused("an unclosed string in a note", 3, 'SSS VERSION 1.1 NOTE @"d SURVEY')
refused("an unclosed string in a line", 3, HEAD + NAMED.replace("~", "") + 'SINGLE POSITION 1 VALUES 1 "a" 2 @"b END VALUES')
refused("a quote that is the last byte", 3, 'SSS VERSION 1.1 DATE @"')
for end in ("{", '{"', "{{", "{N", "{NL", "{4", "{41", "{414", "{\n4\n"):
    refused(f"the end inside {end.encode('unicode_escape').decode()}: it could still become good", 3, HEAD + f'VARIABLE 1 NAME @"x{end}')
refused("the end inside a form that can't become good", 3, HEAD + 'VARIABLE 1 NAME "x@{4g')
refused("the end inside a form in a comment's string: the comment", 3, HEAD + '@<"x{4')

# ---------------------------------------------------------------------------------------------- VARIABLE, NAME, LABEL, TYPE

sound("ident 9999", whole(TRUTH.replace("VARIABLE 1", "VARIABLE 9999", 1)), row(9999, LOGICAL, 1, 1, 1))
sound("ident with zeros in front", whole(TRUTH.replace("VARIABLE 1", "VARIABLE 0042", 1)), row(42, LOGICAL, 1, 1, 1))
SECOND = ' VARIABLE 2 NAME "~m~" LABEL "~k~" TYPE LOGICAL POSITION 2 END VARIABLE'
sound("two variables whose idents fall", whole(TRUTH.replace("VARIABLE 1", "VARIABLE 7", 1) + SECOND), row(7, LOGICAL, 1, 1, 1), row(2, LOGICAL, 2, 2, 1))
refused("ident 0", 5, whole(TRUTH.replace("VARIABLE 1", "VARIABLE @0", 1)))
refused("ident 0000", 5, whole(TRUTH.replace("VARIABLE 1", "VARIABLE @0000", 1)))
refused("ident 10000", 5, whole(TRUTH.replace("VARIABLE 1", "VARIABLE @10000", 1)))
refused("ident 00001", 5, whole(TRUTH.replace("VARIABLE 1", "VARIABLE @00001", 1)))
refused("ident of 30 digits", 5, whole(TRUTH.replace("VARIABLE 1", "VARIABLE @" + "9" * 30, 1)))
refused("a repeated ident", 5, whole(TRUTH + SECOND.replace("VARIABLE 2", "VARIABLE @1", 1)))
refused("a repeated ident by value", 5, whole(TRUTH + SECOND.replace("VARIABLE 2", "VARIABLE @001", 1)))
refused("a repeated ident behind others", 5, whole(TRUTH + SECOND + SECOND.replace("VARIABLE 2", "VARIABLE @02", 1)))
refused("an ident is judged before what follows", 5, whole("VARIABLE @0 LABEL"))
refused("an ident is judged before a comment that follows", 5, whole("VARIABLE @0 <"))
refused("an ident of dropped and kept bytes", 5, whole("VARIABLE \n@0\n0\n NAME"))
refused("no ident", 2, whole('VARIABLE @NAME "n"'))
refused("a signed ident", 2, whole('VARIABLE @-1 NAME "n"'))
refused("an ident with a point", 2, whole('VARIABLE 1@.0 NAME "n"'))
refused("no NAME", 2, whole('VARIABLE 1 @LABEL "l"'))
refused("NAME without its string", 2, whole('VARIABLE 1 NAME @LABEL "l"'))
refused("NAMES for NAME", 2, whole('VARIABLE 1 NAME@S "n"'))
refused("no LABEL", 2, whole('VARIABLE 1 NAME "n" @TYPE'))
refused("NAME twice", 2, whole('VARIABLE 1 NAME "n" @NAME "n"'))
refused("no TYPE", 2, whole('VARIABLE 1 NAME "n" LABEL "l" @POSITION 1'))
refused("a type that is none", 2, one("@NUMBER POSITION 1"))
refused("a type in quotes", 2, one('@"SINGLE" POSITION 1'))
refused("TYPE LOGICALX", 2, one("LOGICAL@X POSITION 1"))
refused("no POSITION", 2, one("LOGICAL @"))
refused("LOGICAL with SIZE", 2, one("LOGICAL POSITION 1 @SIZE 1"))
refused("LOGICAL with VALUES", 2, one("LOGICAL POSITION 1 @VALUES 0 TO 1 END VALUES"))
refused("CHARACTER with VALUES", 2, one("CHARACTER POSITION 1 @VALUES 1 TO 2 END VALUES"))
refused("CHARACTER without SIZE", 2, one("CHARACTER POSITION 1 @"))
refused("SINGLE with SIZE", 2, one("SINGLE POSITION 1 @SIZE 1"))
refused("SINGLE with SPREAD", 2, one("SINGLE POSITION 1 @SPREAD 1 VALUES 1 TO 2 END VALUES"))
refused("SINGLE without VALUES", 2, one("SINGLE POSITION 1 @"))
refused("QUANTITY with SPREAD", 2, one("QUANTITY POSITION 1 @SPREAD 1 VALUES 1 TO 2 END VALUES"))
refused("SPREAD behind VALUES", 2, one("MULTIPLE POSITION 1 TO 9 VALUES 1 TO 9 END VALUES @SPREAD 1"))
refused("END VARIABLE is missing", 2, whole(NAMED + "LOGICAL POSITION 1 @VARIABLE 2"))
refused("END with another word", 2, whole(NAMED + "LOGICAL POSITION 1 END @RECORD"))
refused("END and nothing more", 2, HEAD + NAMED + "LOGICAL POSITION 1 END@")
refused("END RECORD twice", 2, HEAD + TRUTH + " END RECORD END @RECORD END SURVEY END SSS")
refused("END SURVEY before END RECORD", 2, HEAD + TRUTH + " END @SURVEY END RECORD END SSS")
refused("a variable behind END RECORD", 2, HEAD + TRUTH + " END RECORD @" + TRUTH)
refused("END SSS is missing", 2, HEAD + TRUTH + " END RECORD END SURVEY\n@")
refused("END SSS breaks off", 2, HEAD + TRUTH + " END RECORD END SURVEY END @SS")

# ---------------------------------------------------------------------------------------------- POSITION, SIZE, SPREAD

sound("LOGICAL in many bytes", one("LOGICAL POSITION 3 TO 9"), row(1, LOGICAL, 3, 9, 1))
sound("location 16384", one("LOGICAL POSITION 16384"), row(1, LOGICAL, 16384, 16384, 1))
sound("a position as long as can be", one("LOGICAL POSITION 1 TO 16384"), row(1, LOGICAL, 1, 16384, 1))
sound("zeros in front of locations", one("LOGICAL POSITION " + "0" * 30 + "7 TO 0007"), row(1, LOGICAL, 7, 7, 1))
sound(
    "positions that overlap; the highest finish is not the last",
    whole(TRUTH.replace("POSITION 1", "POSITION 5 TO 40") + SECOND),
    row(1, LOGICAL, 5, 40, 1),
    row(2, LOGICAL, 2, 2, 1),
)
refused("start 0", 7, one("LOGICAL POSITION @0"))
refused("start 000", 7, one("LOGICAL POSITION @000 TO 5"))
refused("start and finish 0: the earlier place", 7, one("LOGICAL POSITION @0 TO 0"))
refused("finish below start", 7, one("LOGICAL POSITION 5 TO @4"))
refused("finish 0", 7, one("LOGICAL POSITION 3 TO @0"))
refused("finish below start, both beyond the limit: 7 before 8", 7, one("LOGICAL POSITION 20000 TO @16385"))
refused("start beyond the limit, finish below: 7 before 8", 7, one("LOGICAL POSITION 16385 TO @1"))
refused("start 0, finish beyond the limit: 7 before 8", 7, one("LOGICAL POSITION @0 TO 20000"))
refused("twenty digits reversed", 7, one("LOGICAL POSITION 99999999999999999999 TO @99999999999999999998"))
refused("twenty digits and fewer, zeros in front", 7, one("LOGICAL POSITION 99999999999999999999 TO @000000000000000000000000000016"))
refused("location 16385", 8, one("LOGICAL POSITION @16385"))
refused("finish 16385", 8, one("LOGICAL POSITION 1 TO @16385"))
refused("start and finish beyond the limit: the earlier place", 8, one("LOGICAL POSITION @16385 TO 16386"))
refused("twenty digits, rising", 8, one("LOGICAL POSITION @99999999999999999998 TO 99999999999999999999"))
refused("no number behind POSITION", 2, one("LOGICAL POSITION @TO 4"))
refused("no number behind TO", 2, one("LOGICAL POSITION 0 TO @X"))
refused("a signed location", 2, one("LOGICAL POSITION @-1"))
refused("a location with a point", 2, one("LOGICAL POSITION 1@.5"))
refused("TO twice", 2, one("LOGICAL POSITION 1 TO 2 @TO 3"))
refused("POSITION 0 before a comment where TO may stand: 3", 3, HEAD + NAMED + "LOGICAL POSITION 0 @< TO 5")
refused("POSITION 0 before a bad form where TO may stand: 3", 3, HEAD + NAMED + 'LOGICAL POSITION 0 <"@{}"> TO 5')
refused("POSITION 0 TO 5 before a comment: 7", 7, HEAD + NAMED + "LOGICAL POSITION @0 TO 5 <")
refused("POSITION 0 before half of TO: 7", 7, HEAD + NAMED + "LOGICAL POSITION @0 T")
refused("POSITION 0 before a word that is not due: 7", 7, one("LOGICAL POSITION @0 VALUES"))
refused("POSITION 0 at the end: 7", 7, HEAD + NAMED + "LOGICAL POSITION @0")
refused("POSITION 0 behind a comment: its own place", 7, one("LOGICAL POSITION <c> @0 <c> TO <c> 5"))

sound("SIZE 4096", one("CHARACTER POSITION 1 TO 5000 SIZE 4096"), row(1, CHARACTER, 1, 5000, 4096))
sound("SIZE 1 with zeros in front", one("CHARACTER POSITION 1 SIZE 0001"), row(1, CHARACTER, 1, 1, 1))
refused("SIZE 0", 7, one("CHARACTER POSITION 1 SIZE @0"))
refused("SIZE 0 before a comment: no optional word is left", 7, HEAD + NAMED + "CHARACTER POSITION 1 SIZE @0 <")
refused("SIZE 4097", 8, one("CHARACTER POSITION 1 TO 5000 SIZE @4097"))
refused("SIZE 4097 is judged with its statement, not as too narrow", 8, one("CHARACTER POSITION 1 SIZE @4097"))
refused("SIZE of twenty digits", 8, one("CHARACTER POSITION 1 SIZE @99999999999999999999"))
refused("SIZE above the position", 7, one("CHARACTER POSITION @3 TO 5 SIZE 4"))
refused("SIZE without a number", 2, one('CHARACTER POSITION 1 SIZE @"4"'))

sound("spread with OF", one("MULTIPLE POSITION 21 TO 26 SPREAD 2 OF 3 VALUES 1 TO 999 END VALUES"), row(1, MULTIPLE, 21, 26, 3, sub=(2, 3), rng=(1, 999)))
sound("spread without OF", one("MULTIPLE POSITION 21 TO 26 SPREAD 2 VALUES 1 TO 9 END VALUES"), row(1, MULTIPLE, 21, 26, 1, sub=(2, 3), rng=(1, 9)))
sound("spread that leaves bytes over", one("MULTIPLE POSITION 1 TO 9 SPREAD 2 OF 2 VALUES 1 TO 99 END VALUES"), row(1, MULTIPLE, 1, 9, 2, sub=(2, 2), rng=(1, 99)))
sound("spread of one", one('MULTIPLE POSITION 1 TO 4 SPREAD 1 VALUES 9999 "~x~" END VALUES'), row(1, MULTIPLE, 1, 4, 4, sub=(1, 4), lines=(9999,)))
sound("spread with zeros in front", one("MULTIPLE POSITION 1 TO 4 SPREAD 0002OF002 VALUES 1 TO 9 END VALUES"), row(1, MULTIPLE, 1, 4, 1, sub=(2, 2), rng=(1, 9)))
refused("no subfields", 7, one("MULTIPLE POSITION 1 TO 4 SPREAD @0 VALUES 1 TO 9 END VALUES"))
refused("no subfields of no width: the earlier place", 7, one("MULTIPLE POSITION 1 TO 4 SPREAD @0 OF 0 VALUES 1 TO 9 END VALUES"))
refused("subfields of no width", 7, one("MULTIPLE POSITION 1 TO 4 SPREAD 2 OF @0 VALUES 1 TO 9 END VALUES"))
refused("inexact", 7, one("MULTIPLE POSITION 1 TO 5 SPREAD @2 VALUES 1 TO 9 END VALUES"))
refused("inexact: more subfields than bytes", 7, one("MULTIPLE POSITION 1 TO 5 SPREAD @6 VALUES 1 TO 9 END VALUES"))
refused("inexact: twenty digits", 7, one("MULTIPLE POSITION 1 TO 5 SPREAD @10000000000000000000 VALUES 1 TO 9 END VALUES"))
refused("inexact is judged with SPREAD, before what follows", 7, one("MULTIPLE POSITION 1 TO 5 SPREAD @2 SIZE"))
refused("inexact before a comment where OF may stand: 3", 3, HEAD + NAMED + "MULTIPLE POSITION 1 TO 5 SPREAD 2 @<")
refused("inexact before half of OF: 7", 7, HEAD + NAMED + "MULTIPLE POSITION 1 TO 5 SPREAD @2 O")
refused("SPREAD 0 OF 1 before a comment: 7", 7, HEAD + NAMED + "MULTIPLE POSITION 1 TO 5 SPREAD @0 OF 1 <")
refused("SPREAD without a count", 2, one("MULTIPLE POSITION 1 TO 5 SPREAD @OF 2 VALUES 1 TO 9 END VALUES"))
refused("OF without a width", 2, one("MULTIPLE POSITION 1 TO 5 SPREAD 0 OF @VALUES 1 TO 9 END VALUES"))

# ---------------------------------------------------------------------------------------------- too narrow

refused("SINGLE to 20 in one byte", 7, one("SINGLE POSITION @21 VALUES 1 TO 20 END VALUES"))
refused("SINGLE, a line wider than the range", 7, one('SINGLE POSITION @1 TO 2 VALUES 1 TO 9 WITH 100 "x" END VALUES'))
refused("a bitstring of 9 in four bytes", 7, one('MULTIPLE POSITION @21 TO 24 VALUES 1 "a" 2 "b" 3 "c" 9 "i" END VALUES'))
refused("quantity 0 to 999 in two bytes", 7, quantity("0 TO 999", "@21 TO 22"))
refused("quantity -99 to 9 in two bytes: the minus", 7, quantity("-99 TO 9", "@21 TO 22"))
refused("quantity .5 to 0.9 in two bytes: a digit before the point", 7, quantity(".5 TO 0.9", "@1 TO 2"))
refused("quantity 1 to 99 with 7. in two bytes: the point", 7, quantity('1 TO 99 WITH 7. "x"', "@1 TO 2"))
refused("subfields too narrow for the categories", 7, one("MULTIPLE POSITION @1 TO 8 SPREAD 4 OF 2 VALUES 1 TO 100 END VALUES"))
refused("subfields without OF too narrow for the categories", 7, one("MULTIPLE POSITION @1 TO 8 SPREAD 8 VALUES 1 TO 10 END VALUES"))
refused("subfields too many for the position", 7, one("MULTIPLE POSITION @1 TO 8 SPREAD 3 OF 3 VALUES 1 TO 9 END VALUES"))
refused("subfields of twenty digits of width", 7, one("MULTIPLE POSITION @1 TO 8 SPREAD 1 OF 99999999999999999999 VALUES 1 TO 9 END VALUES"))
refused("twenty digits of subfields", 7, one("MULTIPLE POSITION @1 TO 8 SPREAD 99999999999999999999 OF 1 VALUES 1 TO 9 END VALUES"))
refused("count times width past 2 to the 64", 7, one("MULTIPLE POSITION @1 TO 8 SPREAD 4294967296 OF 4294967296 VALUES 1 TO 9 END VALUES"))
refused("too narrow is judged behind END VARIABLE", 2, whole(NAMED + "SINGLE POSITION 1 VALUES 1 TO 20 END VALUES END @X"))
refused("too narrow, and nothing behind END VALUES", 2, HEAD + NAMED + "SINGLE POSITION 1 VALUES 1 TO 20 END VALUES@")
refused("too narrow, and a value of wrong form: 6", 6, one('SINGLE POSITION 1 VALUES 1 TO 20 WITH @0 "x" END VALUES'))
refused("too narrow before the next variable is judged", 7, whole(NAMED + "SINGLE POSITION @1 VALUES 1 TO 20 END VALUES END VARIABLE VARIABLE 0"))
refused("too narrow behind a variable that is not", 7, whole(TRUTH + SECOND.replace("LOGICAL POSITION 2", "CHARACTER POSITION @2 SIZE 2")))
refused("too narrow, with a comment before the number", 7, one("CHARACTER POSITION <c> @1 <c> TO 2 SIZE 3"))

# ---------------------------------------------------------------------------------------------- categories

sound("a range of one", values("5 TO 5"), row(1, SINGLE, 1, 9, 1, rng=(5, 5)))
sound("lines alone, in no order", values('9 "~i~" 1 "~a~" 4 "~d~"'), row(1, SINGLE, 1, 9, 1, lines=(9, 1, 4)))
sound("lines in and outside the range", values('2 TO 5 WITH 5 "~e~" 12 "~l~" SPECIAL 1 "~a~"'), row(1, SINGLE, 1, 9, 2, rng=(2, 5), lines=(5, (12, 1), 1)))
sound("category 9999, zeros in front", values('0000001 TO 0009999 WITH 00042 "~x~"'), row(1, SINGLE, 1, 9, 4, rng=(1, 9999), lines=(42,)))
sound("a bitstring to 9999", values("1 TO 9999", "MULTIPLE", "1 TO 9999"), row(1, MULTIPLE, 1, 9999, 9999, rng=(1, 9999)))
sound("empty texts and no spaces", values('1"~~"2"~~"SPECIAL3"~~"'), row(1, SINGLE, 1, 9, 1, lines=(1, (2, 1), 3)))
sound("SPECIAL in small letters", values('1 "~a~"special'), row(1, SINGLE, 1, 9, 1, lines=((1, 1),)))
for text in ("0", "00", "-1", "-0", "+1", "1.0", "1.", ".", "-", "+", "1-2", "--1", "1.2.3"):
    refused(f"category {text} on a line", 6, values(f'@{text} "x"'))
refused("category 0 at the start of a range", 6, values("@0 TO 5"))
refused("category 0 at the end of a range", 6, values("1 TO @0"))
refused("both of wrong form: the earlier place", 6, values("@0 TO -1"))
refused("a point at the end of a range", 6, values("1 TO @2.0"))
refused("range reversed", 6, values("5 TO @1"))
refused("range reversed, the first beyond the limit: 6 before 8", 6, values("10000 TO @1"))
refused("range reversed, both beyond the limit", 6, values("99999999999999999999 TO @99999999999999999998"))
refused("the first beyond the limit, the second of wrong form: 6 before 8", 6, values("10000 TO @1.0"))
refused("category 10000 on a line", 8, values('@10000 "x"'))
refused("category of twenty digits", 8, values('@99999999999999999999 "x"'))
refused("category 10000 at the end of a range", 8, values("1 TO @10000"))
refused("both beyond the limit: the earlier place", 8, values("@10000 TO 20000"))
refused("a line repeated", 6, values('1 "a" 2 "b" @1 "c"'))
refused("a line repeated with zeros in front", 6, values('1 "a" @01 "b"'))
refused("a line repeated behind SPECIAL", 6, values('1 "a" SPECIAL @1 "b" SPECIAL'))
refused("lines are judged one by one: an earlier 8 before a later 6", 8, values('@10000 "a" 0 "b"'))
refused("the range before the lines: an earlier 8 before a later 6", 8, values('1 TO @10000 WITH 0 "b"'))
refused("a line is judged before what follows", 6, values('@0 "a" X'))
refused("a line is judged before the next line's 2", 6, values('@0 "a" 1 1'))
refused("a line is judged before the next line's unclosed text", 6, HEAD + NAMED + 'SINGLE POSITION 1 VALUES @0 "a" 1 "b')
refused("a line before a comment where SPECIAL may stand: 3", 3, HEAD + NAMED + 'SINGLE POSITION 1 VALUES 0 "a" @<')
refused("a line with SPECIAL before a comment: 6", 6, HEAD + NAMED + 'SINGLE POSITION 1 VALUES @0 "a" SPECIAL <')
refused("a line before half of SPECIAL: 6", 6, HEAD + NAMED + 'SINGLE POSITION 1 VALUES @0 "a" SPEC')
refused("a line whose text is missing is 2, not 6", 2, values("0 @SPECIAL"))
refused("a line whose text is open is 3, not 6", 3, HEAD + NAMED + 'SINGLE POSITION 1 VALUES 0 @"a')
refused("a range before a comment where WITH may stand: 3", 3, HEAD + NAMED + "SINGLE POSITION 1 VALUES 5 TO 1 @<")
refused("a range with WITH before a comment: 6", 6, HEAD + NAMED + "SINGLE POSITION 1 VALUES 5 TO @1 WITH <")
refused("a range before half of WITH: 6", 6, HEAD + NAMED + "SINGLE POSITION 1 VALUES 5 TO @1 WIT")
refused("a range is judged before a line without WITH", 6, values('5 TO @1 6 "x"'))
refused("a range without WITH, then a line", 2, values('1 TO 5 @6 "x"'))
refused("a range without WITH, a note, then a line", 2, values('1 TO 5 NOTE "n" @6 "x"'))
refused("WITH and no line", 2, values("1 TO 5 WITH @"))
refused("WITH behind a line", 2, values('1 "x" @WITH 2 "y"'))
refused("WITH behind a value", 2, values('1 @WITH 2 "y"'))
refused("a range behind a line", 2, values('1 "x" 2 @TO 3'))
refused("a range behind WITH", 2, values("1 TO 2 WITH 3 @TO 4"))
refused("no value in a block", 2, values("@"))
refused("a note and no value in a block", 2, values('NOTE "n" @'))
refused("a text with no value", 2, values('@"x"'))
refused("no value behind TO", 2, values("1 TO @"))
refused("a value of wrong form, and none behind TO: 2", 2, values("0 TO @X"))
refused("two values in a row", 2, values('0 @5 "x"'))
refused("SPECIAL twice", 2, values('1 "x" SPECIAL @SPECIAL'))
refused("SPECIAL behind a range", 2, values("1 TO 5 @SPECIAL"))
refused("END with another word in a block", 2, one("SINGLE POSITION 1 VALUES 1 TO 5 END @VARIABLE"))

# ---------------------------------------------------------------------------------------------- quantities

sound("a quantity from 0 to 9", quantity("0 TO 9"), row(1, QUANTITY, 1, 20, 1, rng=(0, 9)))
sound("the minus counts", quantity("-5 TO 3"), row(1, QUANTITY, 1, 20, 2, rng=(-5, 3)))
sound("-1 to 99: two bytes", quantity("-1 TO 99", "21 TO 22"), row(1, QUANTITY, 21, 22, 2, rng=(-1, 99)))
sound("-1.00 to 99.99: five bytes", quantity("-1.00 TO 99.99"), row(1, QUANTITY, 1, 20, 5, 2, 1, rng=(-100, 9999)))
sound("-0.5 to 0.5", quantity("-0.5 TO 0.5"), row(1, QUANTITY, 1, 20, 4, 1, 1, rng=(-5, 5)))
sound("no digit before the point", quantity(".5 TO .9"), row(1, QUANTITY, 1, 20, 2, 1, 2, rng=(5, 9)))
sound("no digit behind the point", quantity("1. TO 9."), row(1, QUANTITY, 1, 20, 2, 0, 1, rng=(1, 9)))
sound("1 and 9. are alike in decimals; the block has the point", quantity("1 TO 9."), row(1, QUANTITY, 1, 20, 2, 0, 1, rng=(1, 9)))
sound("a point on a line alone", quantity('1 TO 9 WITH 10. "~x~"'), row(1, QUANTITY, 1, 20, 3, 0, 1, rng=(1, 9), lines=(10,)))
sound("minus zero is 0 and has no minus in the width", quantity("-0 TO 5"), row(1, QUANTITY, 1, 20, 1, rng=(0, 5)))
sound("minus zero on a line", quantity('-0.00 "~x~"'), row(1, QUANTITY, 1, 20, 4, 2, 1, lines=(0,)))
sound("zeros in front", quantity("-007 TO 00010"), row(1, QUANTITY, 1, 20, 2, rng=(-7, 10)))
sound("a line wider than the range", quantity('1 TO 9 WITH -20 "~x~" SPECIAL 5 "~y~"'), row(1, QUANTITY, 1, 20, 3, rng=(1, 9), lines=((-20, 1), 5)))
sound("lines alone", quantity('3.5 "~a~" -1.0 "~b~" 0.0 "~c~"'), row(1, QUANTITY, 1, 20, 4, 1, 1, lines=(35, -10, 0)))
sound("fifteen digits either sign", quantity("-999999999999999 TO 999999999999999"), row(1, QUANTITY, 1, 20, 16, rng=(-999999999999999, 999999999999999)))
sound("fifteen digits, nine of them decimals", quantity("-999999.999999999 TO 0.000000001"), row(1, QUANTITY, 1, 20, 17, 9, 1, rng=(-999999999999999, 1)))
sound("twenty digits with zeros in front", quantity("00000000000000000001 TO 00000999999999999999"), row(1, QUANTITY, 1, 20, 15, rng=(1, 999999999999999)))
for text in ("+1", "1..2", "1.2.3", ".", "-", "-.", "1-", "--1", "1-2", "-+1", "+", "1+"):
    refused(f"quantity {text} on a line", 6, quantity(f'@{text} "x"'))
refused("a minus apart from its digits: 2 at the digits", 2, quantity('- @1.0 "x"'))
refused("a quantity in words", 2, quantity('@x "x"'))
refused("decimals differ in a range", 6, quantity("1.0 TO @2"))
refused("decimals differ in a range, the second has more", 6, quantity("1 TO @2.0"))
refused("decimals differ and reversed: the second", 6, quantity("2.0 TO @1"))
refused("decimals differ, and the second is beyond the limit: 6 before 8", 6, quantity("1.0 TO @1.0000000000"))
refused("decimals differ, and the first is beyond the limit: 6 before 8", 6, quantity("1.0000000000 TO @1.0"))
refused("decimals differ on a line", 6, quantity('1.0 TO 2.0 WITH @3 "x"'))
refused("decimals differ between lines", 6, quantity('1 "a" 2. "b" @3.0 "c"'))
refused("a quantity's range reversed", 6, quantity("1 TO @-1"))
refused("a quantity's range reversed below zero", 6, quantity("-1 TO @-2"))
refused("a range of sixteen digits reversed: 6 before 8", 6, quantity("9999999999999999 TO @1"))
refused("twenty digits reversed by their last", 6, quantity("99999999999999999999 TO @99999999999999999998"))
refused("twenty digits below zero reversed by their last", 6, quantity("-99999999999999999998 TO @-99999999999999999999"))
refused("a quantity of wrong form before one beyond the limit", 6, quantity("@+1 TO 9999999999999999"))
refused("a quantity beyond the limit before one of wrong form: 6 first", 6, quantity("9999999999999999 TO @+1"))
refused("a quantity repeated: 1. behind 1", 6, quantity('1 "a" @1. "b"'))
refused("a quantity repeated: -0 behind 0", 6, quantity('0 "a" @-0 "b"'))
refused("a quantity repeated: 01.0 behind 1.0", 6, quantity('1.0 "a" 2.0 "b" @01.0 "c"'))
refused("sixteen digits", 8, quantity('@1000000000000000 "x"'))
refused("sixteen digits below zero", 8, quantity("@-1000000000000000 TO 5"))
refused("sixteen digits with decimals", 8, quantity("1.000000000 TO @1000000.000000000"))
refused("ten decimals of zero", 8, quantity('@0.0000000000 "x"'))
refused("ten decimals in both: the earlier place", 8, quantity("@0.0000000000 TO 1.0000000000"))
refused("sixteen digits on a line behind a sound one", 8, quantity('1 "a" @1000000000000000 "b"'))

# ---------------------------------------------------------------------------------------------- the limits of variables and lines


def many(count, last=None):
    """So many variables, small; `last` is the ident of the last as it is written."""
    text = "".join(f'VARIABLE {n} NAME"~~"LABEL"~~"TYPE LOGICAL POSITION 1 END VARIABLE ' for n in range(1, count))
    return whole(text + f'VARIABLE {last or count} NAME"~~"LABEL"~~"TYPE LOGICAL POSITION 1 END VARIABLE')


def listing(lines, kind="QUANTITY", position="1 TO 5", ident=1):
    text = "".join(f'{value}"~~"' for value in lines)
    return f'VARIABLE {ident} NAME"~~"LABEL"~~"TYPE {kind} POSITION {position} VALUES {text} END VALUES END VARIABLE '


FULL = size(513, 4097)
sound("512 variables", many(512), *[row(n, LOGICAL, 1, 1, 1) for n in range(1, 513)])
refused("513 variables", 8, many(513, "@513"), FULL)
refused("a 513th variable whose ident is repeated: 5 before 8", 5, many(513, "@12"), FULL)
refused("a 513th variable whose ident is 0: 5 before 8", 5, many(513, "@0"), FULL)
sound(
    "4,096 lines in two variables",
    whole(listing(range(1, 3001)) + listing(range(3000, 1904, -1), "SINGLE", "1 TO 4", 2)),
    row(1, QUANTITY, 1, 5, 4, lines=range(1, 3001)),
    row(2, SINGLE, 1, 4, 4, lines=range(3000, 1904, -1)),
)
refused("a 4,097th line", 8, whole(listing([*range(1, 4097), "@4097"])), FULL)
refused("a 4,097th line in a second variable", 8, whole(listing(range(1, 4097)) + listing(["@1"], "SINGLE", "1 TO 4", 2)), FULL)
refused("a 4,097th line that is repeated: 6 before 8", 6, whole(listing([*range(1, 4097), "@77"])), FULL)
refused("a 4,097th line of wrong form: 6 before 8", 6, whole(listing([*range(1, 4097), "@+1"])), FULL)
refused("a 4,096th line that is repeated", 6, whole(listing([*range(4095, 0, -1), "@1"])), FULL)

# ---------------------------------------------------------------------------------------------- STANDARD NAMES

STANDARD = "SSS VERSION 1.1 STANDARD NAMES SURVEY RECORD R "


def names(*texts):
    """Truths with these names, with what stands before the opening quote."""
    return STANDARD + "".join(
        f"VARIABLE {n} NAME {text} LABEL \"~l~\" TYPE LOGICAL POSITION {n} END VARIABLE " for n, text in enumerate(texts, 1)
    ) + TAIL


def truths(count):
    return [row(n, LOGICAL, n, n, 1) for n in range(1, count + 1)]


sound("standard names", names('"~a~"', '"~B~"', '"~a1~"', '"~ABCDEFGH~"', '"~z2345678~"'), *truths(5))
sound("standard names told apart by zeros in front", names('"~Q1~"', '"~Q01~"', '"~Q001~"'), *truths(3))
sound("a standard name in hex and with dropped bytes", names('"~{41}b~"', '"~\nA\rC\0~"', '"~{616263646566}gh~"'), *truths(3))
sound("without STANDARD NAMES any name will do, twice too", names('"~1 a~"', '"~1 a~"', '"~~"', '"~{NL}~"').replace("STANDARD NAMES ", ""), *truths(4))
for text in ("", "1a", "abcdefghi", "a b", " a", "a ", "a_b", "a\x7f", "\xe9", "{NL}", 'a{"}', "a{{}", "{3141}", "a{20}", "a}", "{616263646566676869}"):
    refused(f"the name {text.encode('unicode_escape').decode()!r}", 9, names(f'@"{text}"'))
refused("nine letters with dropped bytes between", 9, names('@"abcd\nefghi"'))
refused("names that agree", 9, names('"ab"', '"c"', '@"ab"'))
refused("names that agree with case set aside", 9, names('"ab"', '@"AB"'))
refused("names that agree once decoded", 9, names('"aB"', '@"{6162}"'))
refused("names that agree once dropped bytes are gone", 9, names('"ab"', '<c> @"a\nb"'))
refused("two pairs that agree: the earliest later one", 9, names('"a"', '"b"', '@"B"', '"A"'))
refused("a bad name behind two that agree", 9, names('"a"', '@"A"', '"1"'))
refused("a bad name before two that agree", 9, names('@"1"', '"a"', '"A"'))
refused("two bad names that agree: the first", 9, names('@"1"', '"1"'))
refused("9 is judged behind END SSS", 2, names('"1"').replace("END SURVEY", "END @X"))
refused("9 is judged behind END SSS: nothing behind END SURVEY", 2, names('"1"').replace(" END SSS", "@"))
refused("9 is judged behind the width of a later variable", 7, STANDARD + TRUTH.replace('"~n~"', '"1"') + SECOND.replace("LOGICAL POSITION 2", "CHARACTER POSITION @2 SIZE 2") + TAIL)
refused("9 before 10", 9, names('"a"', '@"a"'), 0)

# ---------------------------------------------------------------------------------------------- the table is too short

refused("room for the header alone", 10, whole(TRUTH), HEADER)
refused("room for one number too few", 10, whole(TRUTH), size(1) - 1)
sound("room for every number", whole(TRUTH), ONE, room=0)
refused("10 is last: 2 before it", 2, HEAD + TRUTH + " END RECORD END SURVEY END @X", 0)
refused("10 is last: 3 before it", 3, HEAD + '@<', 0)
refused("10 is last: 4 before it", 4, "SSS VERSION @2", 0)
refused("10 is last: 5 before it", 5, whole(TRUTH + SECOND.replace("VARIABLE 2", "VARIABLE @1", 1)), 0)
refused("10 is last: 6 before it", 6, values("5 TO @1"), 0)
refused("10 is last: 7 before it", 7, one("CHARACTER POSITION @1 SIZE 2"), 0)
refused("10 is last: 8 before it", 8, one("LOGICAL POSITION @16385"), 0)
refused("room for all but the last line's length", 10, values('1 "a" 2 "b"'), size(1, 2) - 1)
sound("room for the last line's length", values('1 "~a~" 2 "~b~"'), row(1, SINGLE, 1, 9, 1, lines=(1, 2)), room=0)


# ---- texts decoded (document 02, C-17)
def decoded(title, text, signs=None, number=0, room=None, beyond=0):
    """The text between `~` is decoded, `beyond` bytes more than stand there: its signs (letters as themselves), or the refusal."""
    parts = text.split("~")
    assert len(parts) == 3, title
    place, length = len(parts[0].encode("latin-1")), len(parts[1].encode("latin-1")) + beyond
    if number:
        answer = f"{number} kept\n"
        lent = 8 if room is None else room
    else:
        numbers = [ord(x) if isinstance(x, str) else x for x in signs]
        answer = f"text {len(numbers)} kept\n" + "".join(f"{' '.join(map(str, numbers))}\n" for _ in range(bool(numbers)))
        lent = len(numbers) + 2 if room is None else room
    CASES.append((title, bare(text), f"{lent} {place} {length}", answer))


BREAK = 256


def label(text):
    return HEAD + 'VARIABLE 1 NAME "n" LABEL "~' + text + '~" TYPE LOGICAL POSITION 1 END VARIABLE' + TAIL


decoded("an empty label", label(""), "")
decoded("a label of plain bytes, a closing brace and angles among them", label("a} <b>"), "a} <b>")
decoded("{NL} is a break", label("a{NL}b"), ["a", BREAK, "b"])
decoded("{0A} is byte 10", label("a{0A}b"), ["a", 10, "b"])
decoded("{NL} and {0A} side by side", label("{NL}{0A}{0a}{NL}"), [BREAK, 10, 10, BREAK])
decoded("{0D0A} is bytes 13 and 10", label("{0D0A}"), [13, 10])
decoded("CR LF in a label is nothing", label("a\r\nb"), "ab")
decoded("CR LF within {NL} and within a pair are nothing", label("{N\r\nL}{0\r\nA\t}"), [BREAK, 10])
decoded("a quote and an open brace", label('{"}{{}'), '"{')
decoded("hex pairs of every kind", label("{00fF7e}"), [0, 255, 126])
decoded("bytes above 127", label("\xe4\xff"), "\xe4\xff")
decoded("a name", HEAD + 'VARIABLE 1 NAME "~{4142}c~" LABEL "l" TYPE LOGICAL POSITION 1 END VARIABLE' + TAIL, "ABc")
decoded("a line's text", HEAD + 'VARIABLE 1 NAME "n" LABEL "l" TYPE SINGLE POSITION 1 VALUES 1 "~yes{NL}~" END VALUES END VARIABLE' + TAIL, ["y", "e", "s", BREAK])
decoded("a list that just holds it", label("a{NL}"), ["a", BREAK], room=2)
decoded("a list that is shorter", label("a{NL}"), number=25, room=1)
decoded("no room, and nothing to store", label("\r\n"), "", room=0)
decoded("{nl} is no form", "~a{nl}~", number=3)
decoded("an empty form", "~{}~", number=3)
decoded("half a pair", "~{0}~", number=3)
decoded("a pair and a half", "~{0A0}~", number=3)
decoded("{NL} with more in it", "~{NL0A}~", number=3)
decoded("a space in a form", "~{0A 0A}~", number=3)
decoded("a quote outside a form", '~a"b~', number=3)
decoded("a label and its closing quote", label("ab"), number=3, beyond=1)
decoded("an unfinished form, which goes on in the definition", 'x "~{N~L}"', number=3)
decoded("an unfinished pair", 'x "~{0A~}"', number=3)
decoded("the quote of {\"} behind the stretch", 'x "~{~"}"', number=3)
decoded("past the definition's end", "~ab~", number=3, beyond=1)
decoded("up to the definition's end", "x~ab~", "ab")
decoded("nothing, at the definition's end", "ab~~", "")
decoded("3 comes before 25", '~ab"~', number=3, room=0)

# ---------------------------------------------------------------------------------------------- shares without a leading zero (C-13)

sound(".00 to .99 in three bytes", quantity(".00 TO .99", "1 TO 3"), row(1, QUANTITY, 1, 3, 3, 2, 2, rng=(0, 99)))
refused(".00 to .99 in two bytes", 7, quantity(".00 TO .99", "@1 TO 2"))
sound("-.5 to .5: the minus counts", quantity("-.5 TO .5", "1 TO 3"), row(1, QUANTITY, 1, 3, 3, 1, 2, rng=(-5, 5)))
refused("-.5 to .5 in two bytes", 7, quantity("-.5 TO .5", "@1 TO 2"))
sound("-.00 is 0 and has no minus", quantity("-.00 TO .99", "1 TO 3"), row(1, QUANTITY, 1, 3, 3, 2, 2, rng=(0, 99)))
sound("0.5 beside .5 is code 1", quantity('.5 "~a~" 0.7 "~b~"'), row(1, QUANTITY, 1, 20, 3, 1, 1, lines=(5, 7)))
sound("the writing decides, not the value: .00 beside 0.99", quantity(".00 TO 0.99"), row(1, QUANTITY, 1, 20, 4, 2, 1, rng=(0, 99)))
sound("0.00 beside .99", quantity("0.00 TO .99"), row(1, QUANTITY, 1, 20, 4, 2, 1, rng=(0, 99)))
sound("a line of 9.99 makes it code 1", quantity('.00 TO .99 WITH 9.99 "~dk~"'), row(1, QUANTITY, 1, 20, 4, 2, 1, rng=(0, 99), lines=(999,)))
sound("a bare last line does not decide", quantity('0.5 "~a~" .7 "~b~"'), row(1, QUANTITY, 1, 20, 3, 1, 1, lines=(5, 7)))
sound("bare lines alone", quantity('.5 "~a~" -.7 "~b~" .0 "~c~"', "1 TO 3"), row(1, QUANTITY, 1, 3, 3, 1, 2, lines=(5, -7, 0)))
sound("bare lines behind a bare range", quantity('.5 TO .9 WITH -.1 "~x~"', "1 TO 3"), row(1, QUANTITY, 1, 3, 3, 1, 2, rng=(5, 9), lines=(-1,)))
sound("nine decimals", quantity(".000000000 TO .999999999", "1 TO 10"), row(1, QUANTITY, 1, 10, 10, 9, 2, rng=(0, 999999999)))
sound("a dropped byte before the point", quantity(".5 TO \r\n.9", "1 TO 2"), row(1, QUANTITY, 1, 2, 2, 1, 2, rng=(5, 9)))
refused("narrowness is judged after END VARIABLE, by the code of the whole block", 7, quantity('.5 TO .9 WITH 0.1 "x"', "@1 TO 2"))
refused("a bare number repeated", 6, quantity('.5 "x" -.5 "y" @.5 "z"'))
refused("bare numbers unlike in decimals", 6, quantity('.5 TO @.50'))

# ---------------------------------------------------------------------------------------------- definitions in XML (C-15)
OPENED = '<sss version="1.2"><survey><record ident="A">'
CLOSED = "</record></survey></sss>"
ASKED = '<variable ident="2" type="logical"><name>~Q1~</name><label>~Ever?~</label><position start="5"/></variable>'


def sheet(text, start=OPENED):
    return start + text + CLOSED


def item(type, rest, ident=1, name="~n~", start="1", finish="1", use=""):
    """One variable; `rest` stands behind its position."""
    return (
        f'<variable ident="{ident}" type="{type}"{use}><name>{name}</name><label>~l~</label>'
        f'<position start="{start}" finish="{finish}"/>{rest}</variable>'
    )


sound(
    "serial, weight, a filter, a spread, two languages, a declaration and a DOCTYPE",
    '<?xml version="1.0" encoding="UTF-8"?>\r\n<!DOCTYPE sss SYSTEM "sss.dtd">\r\n<!-- by hand -->'
    + sheet(
        '<variable ident="1" type="character" use="serial"><name>~ID~</name><label>~No. &amp; <br/>name~</label><position start="1" finish="4"/>'
        "<size>4</size></variable>"
        + ASKED
        + '<variable ident="3" type="multiple"><name>~Q2~</name><label/>~~<position finish="9" start="6"></position><filter>Q&#49;</filter>'
        '<spread subfields="2" width="2"/><values><value code="1">~Here~</value>'
        '<value code="12">~There<text xml:lang="de">Dort</text>~</value></values></variable>'
        '<variable ident="4" type="quantity" use="weight"><name>~W~</name><label>~w~</label><position start="10" finish="13"/>'
        '<values><range from="0.00" to="9.99"/></values></variable>',
        '<sss version="1.2" languages="en de"><survey><record ident="A">',
    ),
    row(1, CHARACTER, 1, 4, 4, use=1),
    row(2, LOGICAL, 5, 5, 1),
    row(3, MULTIPLE, 6, 9, 2, sub=(2, 2), lines=(1, 12), filter=2),
    row(4, QUANTITY, 10, 13, 4, 2, 1, rng=(0, 999), use=2),
    mark=12,
)
refused("XML: text where a tag is due", 2, sheet("@x"))
refused("XML: an unknown type", 2, sheet(item("@text", "")))
refused("XML: version 2.0", 4, sheet(ASKED, '<sss version="@2.0"><survey><record ident="A">'))
refused("XML: an ident repeated", 5, sheet(ASKED + item("logical", "", ident="@2")))
refused("XML: a range reversed", 6, sheet(item("single", '<values><range from="2" to="@1"/></values>')))
refused("XML: finish below start, which stands behind it", 7, sheet(item("logical", "", start="2", finish="@1")))
refused("XML: a position too narrow, once the variable is read", 7, sheet(item("single", '<values><value code="10">x</value></values>', start="@1")))
refused("XML: start above 16,384", 8, sheet(item("logical", "", start="@16385", finish="16385")))
refused(
    "XML: standardnames, a name repeated but for case", 9,
    sheet(item("logical", "", name="Q") + item("logical", "", ident=2, name="@q"), '<sss version="1.2" options="standardnames"><survey><record ident="A">'),
)
refused("XML: room short of one number", 10, sheet(ASKED), room=size(1) - 1)
refused("XML: an end tag of another name", 50, sheet(item("logical", "@</variables>")))
refused("XML: the file ends inside a tag", 50, '<sss version="1.2"><survey>@<record ident="A"')
refused("XML: an element that document 000 doesn't name", 51, sheet("@<variables>"))
refused("XML: use in version 1.1", 51, sheet(item("quantity", "", use=' @use="weight"'), '<sss version="1.1"><survey><record ident="A">'))
refused("XML: a weight that is no quantity", 52, sheet(item("character", "<size>1</size>", use=' use="@weight"')))
refused("XML: a filter that names no logical", 52, sheet(ASKED + item("logical", "<filter>@n</filter>", ident=3, name="Q3")))
decoded("XML: a reference, a comment, a break, another language", OPENED + "~a&lt;&#x41;<!--b--><br/>c<text xml:lang='de'>d</text>~", ["a", "<", "A", BREAK, "c"])
decoded("XML: an end tag is no content", OPENED + "~a</name>~", number=3)

# ---------------------------------------------------------------------------------------------- definitions written clean (C-11)


def cleaned(title, text, due, rows=1, lines=0, number=0, room=0, spare=3):
    """`due` are the lines of the clean text, `room` numbers more than needed are lent, `spare` bytes more; or the refusal, `@` at its place."""
    clean = "".join(f"{line}\r\n" for line in due)
    place = text.replace("~", "").find("@")
    answer = f"{number} {max(place, 0)} kept\n" if number else f"clean {len(clean)} kept\n{clean}"
    assert ("@" in text) == (0 < number < 40), title
    CASES.append((title, bare(text), f"{size(rows, lines) + room} {len(clean) + spare}", answer))


def framed(*lines, head=()):
    return ["SSS", "VERSION 1.1", *head, *lines, "END RECORD", "END SURVEY", "END SSS"]


CLEAN_TRUTH = ["VARIABLE 1", 'NAME "n"', 'LABEL "l"', "TYPE LOGICAL", "POSITION 1 TO 1", "END VARIABLE"]
TRUTH_DUE = framed("SURVEY", "RECORD R", *CLEAN_TRUTH)
SAMPLE_DUE = framed(
    *("SURVEY", "RECORD R"),
    *("VARIABLE 1", 'NAME "desk"', 'LABEL "Desk"', "TYPE SINGLE", "POSITION 1 TO 2", "VALUES", "1 TO 12", "END VALUES", "END VARIABLE"),
    *("VARIABLE 2", 'NAME "seen"', 'LABEL "Seen"', "TYPE MULTIPLE", "POSITION 3 TO 6", "VALUES", '1 "a"', '2 "b"', '4 "d"', "END VALUES", "END VARIABLE"),
    *("VARIABLE 3", 'NAME "wait"', 'LABEL "Wait"', "TYPE QUANTITY", "POSITION 7 TO 11", "VALUES", "-1.0 TO 99.5", "END VALUES", "END VARIABLE"),
)
ODD = (
    'S\x01SS version 1.\n1 user"u" <c <d>> Standard\nNames NOTE "n" time "" DATE"1{NL}\x02" note "n" origin "\xe4" survey <"{"}"> title "{2\r\n2}" record z '
    'vari\x1fable 0\n07 NAME "~a\x03b~" LABEL "~~" TYPE MULTIPLE POSITION 0\x045 TO 8 SPREAD 2 NOTE "TO" values 1 to 09 with NOTE "" 01 "~{4a4B}{{}~" SPECIAL '
    '<c> 9 "~}\x00<>~" end values end variable VARIABLE 1 NAME "~b~" LABEL "~{ff}~" TYPE QUANTITY POSITION 009 TO 13 VALUES -0.\n50 TO 9.99 END VALUES END VARIABLE '
    'VARIABLE 2 NAME "~c~" LABEL "~ ~" TYPE CHARACTER POSITION 14 TO 15 SIZE 002 END VARIABLE VARIABLE 3 NAME "~d~" LABEL "~d~" TYPE MULTIPLE POSITION 16 TO 19 '
    'SPREAD 02 OF 02 VALUES 1 "~x~" END VALUES END VARIABLE VARIABLE 4 NAME "~e~" LABEL "~e~" TYPE LOGICAL POSITION 020 END VARIABLE END RECORD END SURVEY end sss <" and more'
)
ODD_DUE = framed(
    *("SURVEY", 'TITLE "{22}"', "RECORD z", "VARIABLE 007", 'NAME "ab"', 'LABEL ""', "TYPE MULTIPLE", "POSITION 05 TO 8", "SPREAD 2 OF 2"),
    *("VALUES", "1 TO 09 WITH", '01 "{4a4B}{{}" SPECIAL', '9 "}<>"', "END VALUES", "END VARIABLE"),
    *("VARIABLE 1", 'NAME "b"', 'LABEL "{ff}"', "TYPE QUANTITY", "POSITION 009 TO 13", "VALUES", "-0.50 TO 9.99", "END VALUES", "END VARIABLE"),
    *("VARIABLE 2", 'NAME "c"', 'LABEL " "', "TYPE CHARACTER", "POSITION 14 TO 15", "SIZE 002", "END VARIABLE"),
    *("VARIABLE 3", 'NAME "d"', 'LABEL "d"', "TYPE MULTIPLE", "POSITION 16 TO 19", "SPREAD 02 OF 02", "VALUES", '1 "x"', "END VALUES", "END VARIABLE"),
    *("VARIABLE 4", 'NAME "e"', 'LABEL "e"', "TYPE LOGICAL", "POSITION 020 TO 020", "END VARIABLE"),
    head=('DATE "1{NL}"', 'TIME ""', 'ORIGIN "\xe4"', 'USER "u"', "STANDARD NAMES"),
)
cleaned("clean: document 01's sample", SAMPLE, SAMPLE_DUE, 3, 3)
cleaned("clean: once more, the clean text itself", "".join(f"{line}\r\n" for line in SAMPLE_DUE), SAMPLE_DUE, 3, 3)
cleaned("clean: everything odd, five more numbers lent", ODD, ODD_DUE, 5, 3, room=5)
cleaned("clean: an exact fit", whole(TRUTH), TRUTH_DUE, spare=0)
cleaned("clean: one byte too few", whole(TRUTH), TRUTH_DUE, number=42, spare=-1)
cleaned("clean: a table of one number too few: 40 before 42", whole(TRUTH), TRUTH_DUE, number=40, room=-1, spare=-1)
cleaned("clean: the definition is refused, WITH is missing: 2 before 40", values('1 TO 5 @6 "x"'), TRUTH_DUE, number=2, room=-1)
cleaned("clean: the definition is refused, its last name repeated: 9", names('"a"', '@"A"'), TRUTH_DUE, number=9)
cleaned("clean: a definition in XML is read as 1.1", "@" + sheet(ASKED), TRUTH_DUE, number=2)


def made():
    asked = b"".join(b"%d %s\n%s\n" % (len(text), str(room).encode(), text) for _, text, room, _ in CASES)
    told = "".join(f"case {n}: {answer}" for n, (_, _, _, answer) in enumerate(CASES, 1)).encode("latin-1")
    return {"stdin": asked, "stdout": told}


if __name__ == "__main__":
    here = os.path.dirname(os.path.abspath(__file__))
    if sys.argv[1:] == ["--titles"]:
        for n, (title, _, _, answer) in enumerate(CASES, 1):
            print(f"{n}: {title}: {answer.splitlines()[0]}")
    elif sys.argv[1:] == ["--check"]:
        for name, content in made().items():
            with open(os.path.join(here, name), "rb") as f:
                if f.read() != content:
                    sys.exit(f"{name} is not what cases.py makes")
    elif not sys.argv[1:]:
        for name, content in made().items():
            with open(os.path.join(here, name), "wb") as f:
                f.write(content)
    else:
        sys.exit(__doc__)
