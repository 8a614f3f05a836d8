"""Rows on cross references, and on the values that point to them."""

from __future__ import annotations

from table.making import HEAD, TRLR, between, reads, refuses, same

LONGEST_NAME = "@" + "A" * 62 + "@"  # 64 bytes
TOO_LONG_NAME = "@" + "A" * 63 + "@"  # 65 bytes
# 64 bytes too, in 34 characters: two @, two letters and thirty of two bytes
LONGEST_OF_MORE = "@A" + "é" * 30 + "b@"
TOO_LONG_OF_MORE = "@A" + "é" * 31 + "@"  # 65 bytes

CROSS_REFERENCES = (
    same("a record with a cross reference", between("0 @I1@ INDI", "1 NAME Ann /Lee/")),
    same("cross references at all levels", between("0 @A@ A", "1 @B@ B", "2 @C@ C x")),
    same("a header with a cross reference", b"0 @H@ HEAD\n0 TRLR\n"),
    reads("the cross reference of the trailer is dropped", HEAD + b"0 @T@ TRLR\n", HEAD + TRLR),
    same("cross references that begin with a digit or an underscore",
         between("0 @1@ A", "0 @_@ A", "0 @9_@ A", "0 @a@ A", "0 @A@ A")),
    same("spaces within a cross reference", between("0 @A b  c @ NOTE", "1 NOTE @A b  c @")),
    same("tabs and control characters within a cross reference", between("0 @A\t\x01\x7f@ NOTE")),
    same("marks within a cross reference", between("0 @A:B!C#D/E,\"'@ NOTE", "1 NOTE @A:B!1@")),
    same("letters beyond ASCII within a cross reference", between("0 @Xé€\U0001f333@ NOTE")),
    same("a cross reference of 64 bytes", between(f"0 {LONGEST_NAME} NOTE")),
    same("a cross reference of 64 bytes in fewer characters", between(f"0 {LONGEST_OF_MORE} NOTE")),
    refuses("a cross reference of 65 bytes", between(f"0 {TOO_LONG_NAME} NOTE"), 12, 2),
    refuses("a cross reference of 65 bytes in fewer characters",
            between(f"0 {TOO_LONG_OF_MORE} NOTE"), 12, 2),
    refuses("an @ alone after a level", between("0 @"), 12, 2),
    refuses("two @ and nothing between", between("0 @@ NOTE"), 12, 2),
    refuses("a cross reference that is not closed, in the first line", b"0 @H HEAD\n" + TRLR, 12, 1),
    refuses("a cross reference that is not closed", between("1 A", "0 @I1 INDI", "0 B"), 12, 3),
    refuses("a cross reference that is not closed, in the last line", HEAD + b"0 @T TRLR", 12, 2),
    refuses("a cross reference at the end of its line", between("0 @A@"), 12, 2),
    refuses("a cross reference of a person and its tag without space", between("0 @I1@NOTE"), 12, 2),
    refuses("a cross reference and its tag without space", between("0 @A@NOTE"), 12, 2),
    refuses("a cross reference that begins with a space", between("0 @ A@ NOTE"), 12, 2),
    refuses("a cross reference that begins with #", between("0 @#D@ NOTE"), 12, 2),
    refuses("a cross reference that begins with a hyphen", between("0 @-A@ NOTE"), 12, 2),
    refuses("a cross reference that begins with a letter beyond ASCII", between("0 @é@ NOTE"), 12, 2),
    refuses("a pair of @ within a cross reference", between("0 @A@@B@ NOTE"), 12, 2),
)

ONE_NAME = (
    refuses("the name of the header again in the second line",
            b"0 @A@ HEAD\n1 @A@ NOTE\n0 TRLR\n", 26, 2),
    refuses("a name again", between("0 @A@ NOTE", "0 @B@ NOTE", "0 @A@ NOTE", "0 C"), 26, 4),
    refuses("a name again below another record", between("0 @A@ NOTE", "0 B", "1 @A@ C"), 26, 4),
    refuses("a name again on the line below", between("0 @A@ NOTE", "1 @A@ C"), 26, 3),
    refuses("a name again on the trailer", between("0 @A@ NOTE") [:-7] + b"0 @A@ TRLR", 26, 3),
    refuses("the name of the header again on the trailer", b"0 @A@ HEAD\n0 @A@ TRLR\n", 26, 2),
    refuses("a name of 64 bytes again",
            between(f"0 {LONGEST_NAME} A", f"0 {LONGEST_NAME} A"), 26, 3),
    refuses("a name again with other spaces behind it", between("0 @A@ B", "0 @A@   C"), 26, 3),
    same("names in another case are others", between("0 @a@ NOTE", "0 @A@ NOTE")),
    same("names with other spaces are others", between("0 @A@ A", "0 @A @ A", "0 @A  @ A")),
    same("names with another form of a letter are others",
         between("0 @E\u0301@ A", "0 @E\u0301\u0301@ A", "0 @E\u00e9@ A")),
    same("pointers are no names", between("0 A @A@", "0 B @A@", "0 @A@ C @A@", "1 D @A@")),
)

POINTERS = (
    same("pointers", between("0 @I1@ INDI", "1 FAMC @F1@", "1 FAMS @F2@", "0 @F1@ FAM @I1@")),
    same("a pointer to a name that is not there", between("0 INDI", "1 FAMC @F9@")),
    reads("spaces at the ends of a pointer",
          between("1 A   @B@", "1 A @B@   ", "1 A    @B@  "), between(*["1 A @B@"] * 3)),
    reads("spaces at the ends of a pointer with spaces in it",
          between("1 FAMC   @A b@  "), between("1 FAMC @A b@")),
    same("a header with a pointer", b"0 HEAD @A@\n1 A\n0 TRLR\n"),
    reads("the value of the trailer is dropped", HEAD + b"0 TRLR @A@\n", HEAD + TRLR),
    same("a pointer of 64 bytes", between(f"1 A {LONGEST_NAME}", f"1 A {LONGEST_OF_MORE}")),
    reads("65 bytes are no pointer",
          between(f"1 A {TOO_LONG_NAME}", f"1 A {TOO_LONG_OF_MORE}"),
          between(f"1 A @{TOO_LONG_NAME}@", f"1 A @{TOO_LONG_OF_MORE}@")),
    reads("a tab at the end makes it a text", between("1 A @B@\t"), between("1 A @@B@@\t")),
    reads("a tab in front makes it a text", between("1 A \t@B@"), between("1 A \t@@B@@")),
    reads("a no-break space makes it a text",
          between("1 A @B@\u00a0"), between("1 A @@B@@\u00a0")),
    reads("text behind it makes it a text", between("1 A @B@ x"), between("1 A @@B@@ x")),
    reads("text before it makes it a text", between("1 A x @B@"), between("1 A x @@B@@")),
    reads("two cross references are a text",
          between("1 A @B@ @C@"), between("1 A @@B@@ @@C@@")),
    # the pair in the middle is one @
    reads("two cross references without space are a text",
          between("1 A @B@@C@"), between("1 A @@B@@C@@")),
    reads("a pointer to nothing is a text", between("1 A @ @"), between("1 A @@ @@")),
    reads("a pointer that begins with # is a text", between("1 A @#B@"), between("1 A @@#B@@")),
    same("a text that looks like a pointer", between("1 NOTE @@I1@@", "1 NOTE @@I1@@ ")),
    reads("a text that becomes like a pointer",
          between("1 NOTE @I1", "2 CONC @"), between("1 NOTE @@I1@@")),
    reads("a text whose continuation looks like a pointer",
          between("1 NOTE a", "2 CONC @B@", "2 CONT @B@", "2 CONT   @B@  "),
          between("1 NOTE a@@B@@", "2 CONT @@B@@", "2 CONT   @@B@@  ")),
    reads("a text that is empty, with a continuation that looks like a pointer",
          between("1 NOTE", "2 CONC @B@"), between("1 NOTE @@B@@")),
)

ROWS = (*CROSS_REFERENCES, *ONE_NAME, *POINTERS)
