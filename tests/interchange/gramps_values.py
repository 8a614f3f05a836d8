"""What Gramps keeps of GEDCOM files, a line of JSON each: `/usr/bin/python3 gramps_values.py FILE..`, with Debian's
gramps. Its settings are in GRAMPSHOME.

Gramps' own import reads each file into a new database, and each object is looked through by its fields:

- `errors`: how many Gramps reports, and `said`, the lines that say so
- `unread`: how many lines stand in notes "not imported", which Gramps adds to an object or leaves with none
- `values`: each text, date and number, as the owner, the path of its fields, and the value. The owner is a person,
  family, source or repository, by its name in the file and by what people call it; what belongs to one only (its
  events, citations, notes) is part of it
- `cited`: the citations of each person, of the events and of the families where a partner, as page and notes
"""

from __future__ import annotations

import json
import re
import sys
import tempfile

# numbers of the database, and what Gramps draws or works out
OWN = {"handle", "gramps_id", "change", "private", "tag_list", "sortval", "newyear", "format", "sort_as", "display_as",
       "group_as", "birth_ref_index", "death_ref_index", "primary", "connector", "mime", "checksum", "rect", "code",
       "calendar", "modifier", "quality", "dateval"}
# what Gramps fills in if a file does not say it
DEFAULTS = {("role", "Primary"), ("role", "Family"), ("origintype", "None"), ("frel", "Birth"), ("mrel", "Birth"),
            ("type", "Birth Name"), ("type", "Unknown"), ("type", "Married")}
SEXES = {0: "F", 1: "M", 2: "U"}
QUALITIES = {0: "0", 1: "1", 3: "2", 4: "3"}  # a citation has 2 if a file says nothing
MODES = {4: "BET {} AND {}", 5: "FROM {} TO {}"}
UNREAD = "GEDCOM import"  # the type of the notes with the lines that were not imported
MADE_UP = "Objects referenced by this note were missing"  # what the note of an object begins with that a file lacks
MADE_UP_NOTE = "Unknown, created to replace a missing note"


def messages_of(user):
    class Listening(user):
        """Keeps what the import reports at its end."""

        said = ("", "")

        def info(self, msg1, infotext="", parent=None, monospaced=False):
            self.said = (msg1, infotext)

        def notify_error(self, text, error=""):
            raise SystemExit(f"Gramps: {text} {error}")

        notify_db_error = notify_error

    return Listening()


def imported(file, folder):
    """The database of the file, and what the import said."""
    from gramps.gen.db.utils import make_database
    from gramps.gen.user import User
    from gramps.plugins.importer.importgedcom import importData

    user = messages_of(User)
    base = make_database("sqlite")
    base.load(folder, None)
    importData(base, file, user)
    if not user.said[0]:
        raise SystemExit(f"Gramps has not read {file}")
    return base, user.said


class Walk:
    """Looks through the objects of a database."""

    def __init__(self, base):
        from gramps.gen.lib.serialize import to_json
        self.base, self.to_json = base, to_json
        self.values, self.unread, self.owner = [], 0, ("", "no owner")
        self.seen = set()

    def found(self, kind, handle):
        """An object as fields."""
        self.seen.add(handle)
        return json.loads(self.to_json(getattr(self.base, f"get_{kind}_from_handle")(handle)))

    def keep(self, path, value):
        if (path.rpartition(" ")[2], str(value)) not in DEFAULTS:
            self.values.append((*self.owner, path, str(value)))

    def name_of(self, handle):
        if not handle:
            return "?"
        name = self.base.get_person_from_handle(handle).get_primary_name()
        return f"{name.get_first_name()} /{name.get_surname()}/"

    def label(self, kind, one):
        if kind == "person":
            return "person " + self.name_of(one["handle"])
        if kind == "family":
            return f"family {self.name_of(one['father_handle'])} {self.name_of(one['mother_handle'])}"
        if kind == "source":
            return f"source {one['title']}"
        return f"repository {one['name']}"

    def named(self, path, kind, handle):
        """A person, family, source or repository that another names."""
        if handle and not self.is_made_up(one := self.found(kind, handle)):
            self.keep(path, self.label(kind, one))

    def is_made_up(self, one):
        """Whether Gramps made an object since the file names one that it has not."""
        notes = (self.base.get_note_from_handle(handle).get() for handle in one.get("note_list", []))
        return any(note.startswith(MADE_UP) for note in notes)

    def date(self, path, one):
        from gramps.plugins.lib.libgedcom import make_gedcom_date
        value, mode = one["dateval"], one["modifier"]

        def day(parts, with_mode):
            text = make_gedcom_date(parts[0:3], one["calendar"], with_mode, one["quality"])
            return re.sub(r"\d+$", lambda year: doubled(int(year[0])), text) if parts[3] else text

        if mode == 6:  # a text
            self.keep(path, one["text"])
        elif mode in MODES:
            self.keep(path, MODES[mode].format(day(value[0:4], 0), day(value[4:8], 0)))
        else:
            self.keep(path, day(value, mode))

    def note(self, path, handle):
        note = self.found("note", handle)
        if note["type"]["string"] == UNREAD:
            self.unread += sum(" Line " in line for line in note["text"]["string"].split("\n"))
        elif not note["text"]["string"].startswith((MADE_UP, MADE_UP_NOTE)):
            self.keep(f"{path} note {kind_of(note['type'])}", note["text"]["string"])

    def part(self, path, one):
        """A field, whatever it is."""
        if isinstance(one, list):
            for each in one:
                self.part(path, each)
        elif isinstance(one, dict):
            self.fields(path, one)
        elif one not in (None, "", 0, 1, 2, -1, False, True):
            self.keep(path, one)

    def fields(self, path, one):
        if self.is_made_up(one):
            return
        match one.get("_class"):
            case "Date":
                self.date(path, one)
                return
            case "StyledText":
                self.part(path, one["string"])
                return
            case "Location" | "PlaceName" | "Surname" | "Name" | "Address" | None:
                pass
            case name if name.endswith("Type"):
                self.keep(path, kind_of(one))
                return
        path = path + (" " + kind_of(one["type"]) if one["_class"] in ("Event", "Attribute", "SrcAttribute") else "")
        for name, value in one.items():
            self.field(path, name, value)

    def field(self, path, name, value):
        if name in OWN or name == "_class" or not value and name not in ("gender", "confidence"):
            return
        if name == "gender":
            self.keep(f"{path} sex", SEXES[value])
        elif name == "confidence":
            self.part(f"{path} quality", QUALITIES.get(value))
        elif name == "note_list":
            for handle in value:
                self.note(path, handle)
        elif name == "citation_list":
            for handle in value:
                citation = self.found("citation", handle)
                if not self.is_made_up(self.found("source", citation["source_handle"])):
                    self.fields(f"{path} citation", citation)
        elif name in ("event_ref_list", "media_list"):
            kind = name.partition("_")[0]
            for reference in value:
                self.fields(f"{path} {kind}", self.found(kind, reference["ref"]))
                self.fields(f"{path} {kind}", {key: of for key, of in reference.items() if key != "ref"})
        elif name == "place":
            self.place(path, value)
        elif name == "source_handle":
            self.named(f"{path} source", "source", value)
        elif name in ("father_handle", "mother_handle"):
            self.named(f"{path} {name}", "person", value)
        elif name == "famc":
            self.named(f"{path} {name}", "family", value)
        elif name in ("family_list", "parent_family_list"):
            for handle in value:
                self.named(f"{path} {name}", "family", handle)
        elif name in ("child_ref_list", "person_ref_list", "reporef_list"):
            kind = "repository" if name == "reporef_list" else "person"
            for reference in value:
                self.named(f"{path} {name}", kind, reference["ref"])
                self.fields(f"{path} {name}", {key: of for key, of in reference.items() if key != "ref"})
        else:
            self.part(f"{path} {name}", value)

    def place(self, path, handle):
        """A place by its names, from the smallest."""
        names = []
        while handle:
            one = self.found("place", handle)
            names.append(one["name"]["value"])
            for key in ("lat", "long", "code"):
                if one[key]:
                    self.keep(f"{path} place {key}", one[key])
            for note in one["note_list"]:
                self.note(f"{path} place", note)
            handle = one["placeref_list"][0]["ref"] if one["placeref_list"] else None
        self.keep(f"{path} place", ", ".join(names))

    def all(self):
        for kind in ("person", "family", "source", "repository"):
            handles = "get_repository_handles" if kind == "repository" else f"get_{kind}_handles"
            for handle in getattr(self.base, handles)():
                one = self.found(kind, handle)
                self.owner = (name_in_file(one["gramps_id"]), self.label(kind, one))
                self.fields(kind, one)
        self.owner = ("", "no owner")
        for handle in self.base.get_note_handles():
            if handle not in self.seen:
                self.note("loose", handle)


def doubled(year):
    """A year of both styles: 1731/32, which Gramps keeps as 1732."""
    return f"{year - 1}/{year % 100:02}"


def name_in_file(own):
    """The name of a record in the file, of which Gramps fills the number up with zeros: I5, kept as I0005."""
    return re.sub(r"^([A-Z])0+(?=\d)", r"\1", own)


def kind_of(one):
    return str(one["string"] or one.get("value"))


def citations_of(base, owner):
    """Each citation of an object or of its events: the page, the notes."""
    lists = [owner.get_citation_list()]
    lists += [base.get_event_from_handle(one.ref).get_citation_list() for one in owner.get_event_ref_list()]
    for handle in (handle for handles in lists for handle in handles):
        one = base.get_citation_from_handle(handle)
        yield one.get_page(), [base.get_note_from_handle(note).get() for note in one.get_note_list()]


def persons_of(base):
    """The citations of each person by the name in the file."""
    for person in base.iter_people():
        found = list(citations_of(base, person))
        for handle in person.get_family_handle_list():
            found += citations_of(base, base.get_family_from_handle(handle))
        yield name_in_file(person.get_gramps_id()), found


def told_of(file, folder):
    base, (first, more) = imported(file, folder)
    walk = Walk(base)
    walk.all()
    words = [word for word in first.split() if word.isdigit()]
    told = {
        "errors": int(words[0]) if words else 0,
        "said": [line.rstrip() for line in more.split("\n") if line.strip()],
        "unread": walk.unread,
        "values": walk.values,
        "cited": dict(persons_of(base)),
    }
    base.close()
    return told


def main():
    files, sys.argv = sys.argv[1:], sys.argv[:1]
    for file in files:
        with tempfile.TemporaryDirectory() as folder:
            print(json.dumps(told_of(file, folder)), flush=True)


if __name__ == "__main__":
    main()
