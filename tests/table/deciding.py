"""Rows on what the bytes of a file decide before it ends: a line is judged once it has ended.

Each file is short, so that the program that feeds the reader in pieces gets it too, and tells the byte that
decides the fault (files.py).
"""

from __future__ import annotations

from table.making import HEAD, MARK, TRLR, between, reads, refuses, same

DECIDED = (
    refuses("decided: a line without level", HEAD + b"A\n", 11, 2),
    refuses("decided: an @ and a space", HEAD + b"0 @ A\n", 12, 2),
    refuses("decided: a tag with a hyphen", HEAD + b"0 A-B\n", 13, 2),
    refuses("decided: U+0000", HEAD + b"0 A \0\n", 15, 2),
    refuses("decided: a gap of levels", HEAD + b"2 A\n", 20, 2),
    refuses("decided: a gap of levels behind a blank line", HEAD + b"\n2 A\n", 20, 2),
    refuses("decided: no header, before a gap of levels", b"2 A\n", 21, 1),
    refuses("decided: a line behind the trailer and a blank line", HEAD + TRLR + b"\n0 A\n", 23, 3),
    refuses("decided: two levels up behind the trailer", HEAD + TRLR + b"2 A\n", 23, 3),
    refuses("decided: CONC at level 0", HEAD + b"0 CONC x\n", 24, 2),
    refuses("decided: CONT below a pointer", HEAD + b"1 A @I1@\n2 CONT x\n", 24, 3),
    refuses("decided: a line below CONT", HEAD + b"1 A\n2 CONT x\n3 B\n", 25, 4),
    refuses("decided: a line below CONC of a record", HEAD + b"0 A\n1 CONC x\n2 B\n", 25, 4),
    refuses("decided: a name again", HEAD + b"0 @I1@ A\n0 @I1@ B\n", 26, 3),
    refuses("decided: the character set", HEAD + b"1 CHAR ANSEL\n", 29, 2),
    refuses("decided: the version", HEAD + b"1 GEDC\n2 VERS 7.0\n", 30, 3),
    refuses("decided: the first of two faulty lines", HEAD + b"2 A\nB\n", 20, 2),
    # what follows the faulty line is not looked at
    refuses("decided before the trailer: a gap of levels", HEAD + b"\n2 A\n" + TRLR, 20, 2),
    refuses("decided before the trailer: the character set", HEAD + b"1 CHAR ANSEL\n" + TRLR, 29, 2),
    refuses("decided before the trailer: the version", HEAD + b"1 GEDC\n2 VERS 7.0\n" + TRLR, 30, 3),
)

OPEN = (
    refuses("open: no byte", b"", 21, 1),
    refuses("open: a header", HEAD, 22, 2),
    refuses("open: a byte order mark and a header", MARK + HEAD, 22, 2),
    refuses("open: a header with its character set and version",
            b"0 HEAD\r1 CHAR utf8 \n\r1 GEDC\n2 VERS 5.5.1\n", 22, 5),
    refuses("open: records without trailer", HEAD + b"1 A\n0 B\n1 C\n", 22, 5),
    refuses("open: a gap of levels on a line that has not ended", HEAD + b"2 A", 20, 2),
    same("open: a header and a trailer", HEAD + TRLR),
)

READ = (
    reads("nodes know the lines that they come from",
          HEAD + b"\n1 A\n2 B\n \n1 C\n0 D\n0 TRLR", between("1 A", "2 B", "1 C", "0 D")),
    reads("levels and line ends are read and written in one way",
          MARK + b"0 HEAD\r\n \t01  A\n\r\n2 B\r0 C\n1 D\n0 TRLR", between("1 A", "2 B", "0 C", "1 D")),
    reads("values are read and written in one way",
          HEAD + b"1 CHAR utf8 \n0 @N1@ NOTE j@x\n1 A  @I1@ \n1 CONC y\n1 CONT\n1 CONT  @@ z\n0 TRLR x",
          between("1 CHAR utf8 ", "0 @N1@ NOTE j@@xy", "1 CONT", "1 CONT  @@ z", "1 A @I1@")),
)

ROWS = (*DECIDED, *OPEN, *READ)
