"""The command `./release --check`: whether a package is the one of this clone, with its gate's executable."""

from __future__ import annotations

import hashlib
import os

from harness import demand, expect, run, written
from release_clones import DEB, MANIFEST, NOTE, TARBALL, bytes_of, of, program, put, refuses, released, unpacked

OF_ROOT = ("--owner=root:0", "--group=root:0")


def repacked(copy, change):
    """The tarball with something of it changed, its manifest of what is in it then, as far as its comments go."""
    top = unpacked(copy, TARBALL)
    change(top)
    manifest = os.path.join(top, MANIFEST)
    with open(manifest, encoding="utf-8") as file:
        comments = [line for line in file if line.startswith("#")]
    names = (os.path.join(at, it) for at, _, names in os.walk(top) for it in names)
    inside = sorted(os.path.relpath(it, top) for it in names if it != manifest)
    sums = run(("sha256sum", *inside), cwd=top).out.decode()
    with open(manifest, "w", encoding="utf-8") as file:
        file.write("".join(comments) + sums)
    expect(run(("sha256sum", "--check", "--quiet", MANIFEST), cwd=top), written(b""))
    name = os.path.join(os.path.dirname(top), os.path.basename(TARBALL))
    of(copy, "tar", "-C", os.path.dirname(top), *OF_ROOT, "-czf", name, os.path.basename(top))
    of(copy, "rm", "-r", top)
    return name


def replace(top, name, data):
    with open(os.path.join(top, name), "wb") as file:
        file.write(data)


def names_another_executable(top):
    with open(os.path.join(top, MANIFEST), "rb") as file:
        text = file.read()
    ours, other = (hashlib.sha256(program(status)).hexdigest().encode() for status in (7, 8))
    replace(top, MANIFEST, text.replace(ours, other))


def has_another_executable(top):
    names_another_executable(top)
    replace(top, "bin/parish", program(8))


CHANGES = (
    (names_another_executable, "its manifest names another executable than the gate made"),
    (has_another_executable, "its manifest names another executable than the gate made"),
    (lambda top: replace(top, "bin/parish", program(8)), "is not the one that the gate made"),
    (lambda top: replace(top, "share/doc/parish/docs/WALK.md", b"other"), "share/doc/parish/MANIFEST is another"),
    (lambda top: replace(top, "share/doc/parish/more", b""), "share/doc/parish/more does not belong there"),
    (lambda top: os.remove(os.path.join(top, "share/doc/parish/LICENSE")), "share/doc/parish/LICENSE is missing"),
    (lambda top: os.chmod(os.path.join(top, "bin/parish"), 0o4755), "is not root's, or has another mode"),
    (lambda top: os.symlink("parish", os.path.join(top, "bin/other")), "bin/other"),
)


def checked(folder):
    copy = released(folder)
    said = of(copy, "./release", "--check", TARBALL, DEB)
    demand([line.partition(":")[0] for line in said.splitlines()] == [TARBALL, DEB], f"it says {said!r}")
    for change, why in CHANGES:
        refuses(copy, why, "--check", repacked(copy, change))
    refuses(copy, "bin/parish is no file of a package, or is there twice", "--check", with_a_file_twice(copy))
    refuses(copy, "postinst", "--check", with_a_script(copy))
    for name in (TARBALL, DEB):
        put(copy, "out/cut" + name[-4:], bytes_of(copy, name)[:1_000])
        refuses(copy, "out/cut", "--check", "out/cut" + name[-4:])


def with_a_file_twice(copy):
    """The tarball with an executable after the one that is right, as whoever unpacks it would get it."""
    top = unpacked(copy, TARBALL)
    folder, name = os.path.split(top)
    of(copy, "tar", "-C", folder, *OF_ROOT, "-cf", "out/twice.tar", name)
    replace(top, "bin/parish", program(8))
    of(copy, "tar", "-C", folder, *OF_ROOT, "-rf", "out/twice.tar", f"{name}/bin/parish")
    of(copy, "gzip", "out/twice.tar")
    return "out/twice.tar.gz"


def with_a_script(copy):
    """The Debian package with a script that dpkg would run as root."""
    tree = copy.path("..", "tree")
    of(copy, "dpkg-deb", "--raw-extract", DEB, tree)
    with open(os.path.join(tree, "DEBIAN", "postinst"), "w", encoding="utf-8") as file:
        file.write("#!/bin/sh\n")
    os.chmod(file.name, 0o755)
    of(copy, "dpkg-deb", "--root-owner-group", "--build", tree, "out/other.deb")
    return "out/other.deb"


def checked_in_a_clone_without_a_gate(folder):
    copy = released(folder)
    os.remove(copy.path(NOTE))
    refuses(copy, "the gate has not passed here", "--check", TARBALL)
