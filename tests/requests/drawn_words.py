"""The words that generated rows of requests are drawn from, and the kinds of their fields."""

from table.making import LAST

NAMES = ["John /Smith/", "Ann /Lee/", "", "Eva", 'a "b" c', "two\nlines", "x,y", "\u00e9 /\u4e2d/", " "]
SEXES = ["M", "F", "U"]
PERSON_TAGS = ["BIRT", "CHR", "DEAT", "BURI", "OCCU", "FACT", "EVEN", "RESI"]
FAMILY_TAGS = ["MARR", "DIV", "ENGA", "CENS", "EVEN", "RESI"]
DATES = ["", "", "1700", "1 may 1800", " abt  1700", "BET 1700 AND 1701", "()", "44b.c.", "about a day", "1731/32"]
ROLES = ["", "witness", "witness", "a,b", "priest"]
VALUES = ["", "", "at home", "two\nlines"]
TITLES = ["Ashby register", "Wills", "", 'The "old" book, vol. 1', "two\nlines", " "]
SHORT = ["", "", "Rev. Lee", "MS 4", "a,b"]  # authors, publishers, call numbers and pages
PAGES = ["f. 3", "f. 3", "f. 4", "", "MS 4", "two\nlines", "p. \u00e9, verso"]  # of registers
PARTNERSHIPS = ["husband", "wife"]
REASONS = ["same farm", "same name, same year", "?", " ", 'says "of the Mill"\nhimself']
ROLES_OF = {
    "BAPTISM": ["child", "father", "mother", "godparent"],
    "MARRIAGE": ["groom", "bride", "father-of-groom", "father-of-bride", "witness"],
    "BURIAL": ["buried", "spouse", "father", "mother"],
}
MENTIONS = [1, 1, 2, 2, 3, 5]  # how many an entry has
MOST = 100  # mentions of an entry
ITEMS = 20  # items of a page that are drawn first
QUALITIES = ["", "0", "1", "2", "3"]
PLACES = ["Kent", "Ashby", "Mill Lane, Ashby", "\u00e9, \u4e2d", "two\nlines", "The \"Mill\"", ", Kent"]
DEEPEST = 8  # places within each other, so that no path passes the limits

# The kinds of the fields of each verb: number, text, sex, tag, date, quality, place's name, kind of an entry, item,
# place of a mention or of a participant, reason, role of a partner, or field of a record, after which comes its value.
# Behind those of an entry come a role and a text for each mention.
KINDS = {
    "person": "TS",
    "name": "NT",
    "sex": "NS",
    "family": "NN",
    "child": "NN",
    "event": "NGTDN",
    "amend": "NTDN",
    "participant": "NNT",
    "place": "PN",
    "repo": "T",
    "source": "TTTNT",
    "citation": "NNTQ",
    "entry": "NKTIDNT",
    "link": "NMNW",
    "unlink": "NM",
    "merge": "NN",
    "undo": "N",
    "remove": "N",
    "partner": "NHN",
    "unpartner": "NN",
    "unchild": "NN",
    "unparticipant": "NM",
    "correct": "NF",
}
OF_MENTION = "RT"
# The fields of each kind of record that can be corrected, and the kind of the value of each. Behind `name` of a person
# and of an entry, and after `role`, comes a place in its list.
CORRECTED = {
    "person": ("sex", "name K"),
    "event": ("tag", "value", "date", "place"),
    "place": ("name",),
    "repo": ("name",),
    "source": ("title", "author", "publisher", "repository", "call number"),
    "citation": ("page", "quality"),
    "entry": ("page", "item", "date", "place", "text", "name K", "role K"),
}
OF_FIELD = {
    "sex": "S",
    "tag": "G",
    "date": "D",
    "quality": "Q",
    "item": "I",
    "role K": "R",
    "place": "N",
    "repository": "N",
}
NO_FIELDS = ["", "Sex", "name 0", "name 01", "role", "name 4294967296", "titles", "call  number", "parent", "kind"]
OF_MEMBERS = ("child", "partner", "unpartner", "unchild", "unparticipant")
# Those that change a record which may have the new value of before again.
BACK = ("name", "sex", "amend", "link", "unlink", "participant", "correct", *OF_MEMBERS)
ODD = {
    "N": ["0", "00000000001", str(LAST + 1), "+1", "1a", " 1", str(LAST), "1000", "1000", "1000"],
    "T": ["a\rb", "a\0b"],
    "S": ["X", "m"],
    "G": ["birt", "NAME", "HUSB", "", "a\0b"],
    "D": ["a\rb", "a\0b", "(\r)"],
    "Q": ["4", "03", " 1", "q"],
    "P": ["", " Kent", "Ashby,Kent", "Kent ", ",", "a\rb", ", ".join("A" * 33)],
    "K": ["", "baptism", "BURIAL ", "BIRT", "CHRISTENING"],
    "I": ["0", "1000000", "00000000001", "", "+1", "9999999999", "0001000000", "x"],
    "M": ["0", "00000000001", "", "-1", "101", str(LAST), str(LAST + 1)],
    "R": ["", "Child", "widow", "father of groom", "a\rb", "a\0b"],
    "W": ["", "", "a\rb", "a\0b"],
    "H": ["", "Wife", "husband ", "HUSB", "child", "M"],
}
ODD_VERBS = [
    "frob", "", "Person", "person ", "personal", "repository", "removed", "Entry", "links", "entries", "merged", "Undo"
]
ODD_TOKENS = ["", "a b", "x" * 65, "\u00e9", "!", "~", "a,b", "x" * 64, "\x7f"]
