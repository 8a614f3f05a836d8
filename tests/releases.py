"""The command `./release`, in a small clone whose `rt` proves nothing and whose program prints a version.

What is expected of the packages is said by tar, dpkg-deb, sha256sum, md5sum and nm, and by the lists below and in
release_clones.py.
"""

from __future__ import annotations

import functools
import hashlib
import os
import re
import shutil
import tempfile

from harness import ROOT, Case, Failed, Tools, demand, expect, run, shown, written
from layout import CODE, LINK
from release_checks import checked, checked_in_a_clone_without_a_gate
from release_clones import (
    DEB, DOCUMENTS, MANIFEST, NOTE, SAMPLES, TARBALL, VERSION, bytes_of, clone, commit, made, of, passed, program, put,
    ran, refuses, released, unpacked,
)
from scripts import Copy

MADE = "crates/parish/out/parish"
DAY = "2026-01-02 03:04"  # of the commit
IN_BOTH = ("LIBRARIES", "MANIFEST", *DOCUMENTS, *SAMPLES)
# Documents that are in no package: they are for who changes the program.
IN_THE_SOURCE = re.compile(r"docs/(ARCHITECTURE|CONTRIBUTING|DECISIONS|DEFINITIONS|GATE)\.md|tests/README\.md")


def made_twice(folder):
    first = released(folder)
    second = Copy(os.path.join(folder, "elsewhere"), {**first.env, "TZ": "Asia/Tokyo", "LC_ALL": "C.UTF-8"})
    second.env["COPY"] = second.folder
    of(first, "git", "clone", "--quiet", first.folder, second.folder, umask=0o077)
    of(second, "./test", umask=0o077)
    said = of(second, "./release", umask=0o077)
    for name in (TARBALL, DEB):
        data = bytes_of(first, name)
        demand(data == bytes_of(second, name), f"{name} has other bytes")
        line = f"{hashlib.sha256(data).hexdigest()}  {os.path.basename(name)}\n"
        demand(line in said, f"{line!r} is not in {said!r}")
    demand(made(first) == sorted(map(os.path.basename, (TARBALL, DEB))), f"out/ has {made(first)}")


def manifest_is_right(copy, package):
    top = unpacked(copy, package)
    expect(run(("sha256sum", "--check", "--strict", "--quiet", MANIFEST), cwd=top), written(b""))
    with open(os.path.join(top, MANIFEST), encoding="utf-8") as file:
        lines = file.read().splitlines()
    named = {line.partition("  ")[2] for line in lines if not line.startswith("#")}
    found = {os.path.relpath(os.path.join(at, it), top) for at, _, names in os.walk(top) for it in names}
    demand(named == found - {MANIFEST}, f"not in the manifest, or not there: {named ^ found}")
    wanted = (
        f"# parish {VERSION}",
        "# kit kit 1",
        f"# commit {of(copy, 'git', 'rev-parse', 'HEAD').strip()}",
        f"# sources {of(copy, './tests/sources_sum').strip()}",
        f"# executable {hashlib.sha256(program(7)).hexdigest()}",
        "# proofs 3 passed, 0 failed",
        "# gate 5 passed, 0 failed",
    )
    demand(lines[: len(wanted)] == list(wanted), f"it begins with {lines[: len(wanted)]}")


def executable_is_stripped(copy):
    path = os.path.join(unpacked(copy, TARBALL), "bin/parish")
    got = run(("nm", path))
    demand(b"no symbols" in got.err and not got.out, f"it has symbols: {shown(got.out)}")
    expect(run((path, "--version")), written(f"parish {VERSION}\n".encode()))


def listed(text):
    """Mode, owner and name of each line, and its day and minute, as tar and dpkg-deb list them."""
    rows = (line.split(maxsplit=5) for line in text.splitlines())
    return [(mode, owner, name.rstrip("/"), f"{day} {minute}"[:16]) for mode, owner, _, day, minute, name in rows]


def folders_above(names):
    return {name.rsplit("/", count)[0] for name in names for count in range(1, name.count("/") + 1)}


def demand_listed(found, programs, others):
    wanted = [("-rwxr-xr-x", name) for name in programs] + [("-rw-r--r--", name) for name in others]
    wanted += [("drwxr-xr-x", name) for name in folders_above([*programs, *others])]
    rows = [(mode, "root/root", name, DAY) for mode, name in wanted]
    demand(sorted(found) == sorted(rows), f"too many or too few: {set(found) ^ set(rows)}")


def names_and_modes(copy):
    top = f"parish-{VERSION}-x86_64-linux"
    doc = [f"share/doc/parish/{name}" for name in IN_BOTH]
    shells = ("share/bash-completion/completions/parish", "share/zsh/site-functions/_parish")
    more = (*shells, "share/doc/parish/LICENSE", "share/man/man1/parish.1")
    others = [f"{top}/{it}" for it in (*doc, *more)]
    rows = listed(of(copy, "tar", "-tvzf", TARBALL))
    demand_listed(rows, [f"{top}/bin/parish"], others)
    demand([it[2] for it in rows] == sorted((it[2] for it in rows), key=lambda it: it.split("/")), "not sorted")
    shells = ("share/bash-completion/completions/parish", "share/zsh/vendor-completions/_parish")
    more = (*shells, "share/doc/parish/copyright", "share/doc/parish/changelog.gz", "share/man/man1/parish.1.gz")
    rows = listed(of(copy, "dpkg-deb", "--contents", DEB))
    demand_listed(rows, ["./usr/bin/parish"], [f"./usr/{it}" for it in (*doc, *more)])


def what_dpkg_is_told(copy):
    fields = dict(line.split(": ", 1) for line in of(copy, "dpkg-deb", "--field", DEB).splitlines() if line[0] != " ")
    for name, value in (("Package", "parish"), ("Version", VERSION), ("Architecture", "amd64")):
        demand(fields.get(name) == value, f"{name}: {fields.get(name)}")
    demand(re.fullmatch(r"libc6 \(>= 2\.\d+(\.\d+)?\)", fields["Depends"]) is not None, f"Depends: {fields['Depends']}")
    told = copy.path("..", "told")
    of(copy, "dpkg-deb", "--control", DEB, told)
    demand(sorted(os.listdir(told)) == ["control", "md5sums"], f"dpkg gets {os.listdir(told)}")
    top = os.path.dirname(unpacked(copy, DEB))
    expect(run(("md5sum", "--check", "--quiet", "--strict", os.path.join(told, "md5sums")), cwd=top), written(b""))
    with open(os.path.join(told, "md5sums"), encoding="utf-8") as file:
        demand(len(file.readlines()) == sum(len(names) for _, _, names in os.walk(top)), "md5sums names too few")


def licences_of_libraries(copy):
    with open(os.path.join(unpacked(copy, TARBALL), "share/doc/parish/LIBRARIES"), encoding="utf-8") as file:
        text = file.read()
    demand(text.count("The licence of two.") == 1 and "\nclap, strsim:\n" in text, f"it has {text!r}")
    demand("\nstrsim:\n\nThat of strsim." in text, f"it has {text!r}")
    demand("unused" not in text, "it names a library that is not in the program")


def edited(copy):
    copy.write("README.md", "edited\n")


def with_a_new_file(copy):
    copy.write("crates/low/src/new.rt", "")


def without_a_gate(copy):
    os.remove(copy.path(NOTE))


def with_another_note(copy):
    note = bytes_of(copy, NOTE).decode()
    copy.write(NOTE, note.replace("gate 5 passed, 0 failed", "gate 5 passed, 1 failed"))


def committed_since(copy):
    edited(copy)
    commit(copy)


def with_another_kit(copy):
    copy.env["KIT"] = "2"


def with_another_executable(copy):
    put(copy, MADE, program(8))


def made_anew_with_its_note(copy):
    """As ./parish leaves it: an executable of these sources that was not there when the gate passed."""
    with_another_executable(copy)
    of(copy, "./tests/sources_sum", "--keep", of(copy, "./tests/sources_sum").strip())


def without_an_executable(copy):
    os.remove(copy.path(MADE))


def without_dpkg(copy):
    """A system that is not Debian's: no dpkg-deb is on the PATH."""
    copy.env["PATH"] = copy.env["PATH"].partition(":")[0]
    for name in ("git", "gzip", "strip", "tar", "date"):
        os.symlink(shutil.which(name), os.path.join(copy.env["PATH"], name))


REFUSALS = (
    (edited, "the clone is not clean: git status names README.md"),
    (with_a_new_file, "the clone is not clean: git status names crates/low/src/new.rt"),
    (without_a_gate, "the gate has not passed here: ./test has left no crates/parish/out/gate"),
    (with_another_note, "crates/parish/out/gate does not say that the gate has passed"),
    (committed_since, "the gate passed on commit "),
    (with_another_kit, "the executable is not of these sources: ./test makes one"),
    (with_another_executable, "the executable is not of these sources: ./test makes one"),
    (made_anew_with_its_note, "the executable is not the one that the gate made"),
    (without_an_executable, "the executable is not of these sources: ./test makes one"),
    (without_dpkg, "there is no dpkg-shlibdeps"),
)


def refused(folder, spoil, why):
    copy = passed(folder)
    spoil(copy)
    refuses(copy, why)


def of_another_version(folder):
    copy = clone(folder)
    for name, text, why in (
        ("CHANGELOG.md", "# Changes\n\n## 7.8.8\n", f"CHANGELOG.md has no heading ## {VERSION}"),
        ("docs/parish.1", '.TH PARISH 1 "" "parish 7.8.8" "User Commands"\n', "docs/parish.1 is not the manual of"),
    ):
        before = bytes_of(copy, name).decode()
        copy.write(name, text)
        commit(copy)
        of(copy, "./test")
        refuses(copy, why)
        copy.write(name, before)


GATES_WITHOUT_A_NOTE = (
    ("tests/run.py", "print('2 passed, 1 failed')\n"),
    ("tests/run.py", "open('README.md', 'a').write('a test has changed this'); print('2 passed, 0 failed')\n"),
    ("fails", "the proofs fail\n"),
    ("lies", "rt ci says that nothing failed and ends with 1\n"),
)


def no_note_of_a_gate_that_failed(folder):
    """Neither where something fails, nor where the clone is not clean at the beginning or at the end."""
    copy = passed(folder)
    edited(copy)
    of(copy, "./test")
    demand(not os.path.exists(copy.path(NOTE)), "there is a note of a clone that was not clean")
    for name, text in GATES_WITHOUT_A_NOTE:
        of(copy, "git", "checkout", "--quiet", "README.md")
        of(copy, "./test")
        demand(os.path.exists(copy.path(NOTE)), "a gate that passed left no note")
        copy.write(name, text)
        commit(copy)
        ran(copy, "./test")
        demand(not os.path.exists(copy.path(NOTE)), f"there is a note in spite of {name}: {text}")
        of(copy, "git", "reset", "--quiet", "--hard", "HEAD~1")
    refuses(copy, "the gate has not passed here")


def links_of_packaged_documents():
    """They lead to documents of the package; those to the source's are named in IN_THE_SOURCE."""
    for name in (*(it for it in DOCUMENTS if it.endswith(".md")), "samples/README.md"):
        with open(os.path.join(ROOT, name), encoding="utf-8") as file:
            links = [link.partition("#")[0] for link in LINK.findall(CODE.sub("", file.read()))]
        to = {os.path.normpath(os.path.join(os.path.dirname(name), link)) for link in links if link and ":" not in link}
        lost = sorted(it for it in to if it not in DOCUMENTS and not it.startswith("samples"))
        demand(all(IN_THE_SOURCE.fullmatch(it) for it in lost), f"{name} leads to {lost}, which no package has")


def the_version_is_told_alike(tools):
    """What the program prints, the first heading of the changelog, the manual, the packages that documents name."""
    version = run(tools.parish, ("--version",)).out.decode().split()[-1]
    with open(os.path.join(ROOT, "CHANGELOG.md"), encoding="utf-8") as file:
        headings = re.findall(r"^## (\S+)", file.read(), re.MULTILINE)
    demand(headings[:1] == [version], f"the program prints {version}, the changelog begins with {headings[:1]}")
    with open(os.path.join(ROOT, "docs", "parish.1"), encoding="utf-8") as file:
        manual = re.search(r'^\.TH PARISH 1 "" "parish (\S+)"', file.read(), re.MULTILINE)
    demand(manual is not None and manual[1] == version, "the manual is of another version")
    for name in ("README.md", "docs/VERSIONS.md", "docs/WALK.md"):
        with open(os.path.join(ROOT, name), encoding="utf-8") as file:
            named = re.findall(r"parish[-_](\d+\.\d+\.\d+)[-_]", file.read())
        demand(set(named) == {version}, f"{name} names packages of {set(named)}")


OF_PACKAGES = (
    functools.partial(manifest_is_right, package=TARBALL),
    functools.partial(manifest_is_right, package=DEB),
    executable_is_stripped,
    names_and_modes,
    what_dpkg_is_told,
    licences_of_libraries,
)


def packages_are_right(folder):
    copy = released(folder)
    whys = []
    for test in OF_PACKAGES:
        try:
            test(copy)
        except Failed as failed:
            whys.append(str(failed))
    demand(not whys, "; ".join(whys))


RELEASES = (
    ("made twice, in two clones, it is the same bytes", made_twice),
    ("both packages have what they should", packages_are_right),
    ("a changelog or a manual of another version is refused", of_another_version),
    ("./test leaves no note of a gate that failed", no_note_of_a_gate_that_failed),
    ("--check refuses what was changed, another executable first", checked),
    ("--check asks for a gate that passed", checked_in_a_clone_without_a_gate),
)


def in_a_folder(test):
    with tempfile.TemporaryDirectory() as folder:
        test(os.path.realpath(folder))


def cases(tools: Tools):
    for name, test in RELEASES:
        yield Case(f"releases: {name}", functools.partial(in_a_folder, test))
    for spoil, why in REFUSALS:
        test = functools.partial(refused, spoil=spoil, why=why)
        yield Case(f"releases: refused {spoil.__name__.replace('_', ' ')}", functools.partial(in_a_folder, test))
    yield Case("releases: links of packaged documents lead to documents", links_of_packaged_documents)
    yield Case("releases: the version is the same everywhere", functools.partial(the_version_is_told_alike, tools))
