"""Installs and removes the packages in a clean Debian 12, which `./test` does not do.

    python3 tests/long_packages.py [--base FOLDER] [--lintian] [FOLDER]

FOLDER has the tarball and the Debian package that `./release` made (out). As root, debootstrap makes a system without
anything else in a folder that goes again, from Debian's archive; `--base` takes a copy of one that is there. In it each
package is installed by the lines of README.md, "Install and remove", its files are compared with its manifest, and
somebody who is not root does what docs/WALK.md shows, on the samples of the package; a later Debian package is put in
its place, and this one again. Then it is removed by README's lines, and all files of the system have to be what they
were, but for the logs and what apt and dpkg keep for themselves, of which only the logs may name it. `--lintian` has
lintian, installed there, judge the Debian package. A line for each step, and last `N passed, M failed`.
"""

from __future__ import annotations

import argparse
import glob
import hashlib
import os
import re
import shlex
import shutil
import stat
import subprocess
import sys
import tempfile
from dataclasses import dataclass

sys.dont_write_bytecode = True

from documents import text_of, walks_of  # noqa: E402
from harness import ROOT, Case, demand, difference, shown  # noqa: E402
from run import outcome_of  # noqa: E402

SUITE, ARCHIVE = "bookworm", "http://deb.debian.org/debian"
NOBODY = "65534:65534"
LIMIT = 1_800  # seconds for one command
ROOM = "tmp/room"  # in the system, for what a case brings along
# What apt and dpkg keep for themselves: what they did, and what they know of all packages.
THEIR_LOGS = re.compile(r"var/log/(apt/.*|dpkg\.log|alternatives\.log)|var/lib/dpkg/status-old")
THEIR_STATE = re.compile(r"var/lib/dpkg/(status|lock.*|triggers/Lock)|var/lib/apt/.*|var/cache/(apt|debconf)/.*")


@dataclass(frozen=True)
class System:
    """A Debian in a folder."""

    root: str

    def path(self, name):
        return os.path.join(self.root, name)

    def run(self, command, *, user=None, folder="/"):
        """Runs a line of sh in it, and hands back its status and both its outputs as one."""
        env = {"PATH": "/usr/local/sbin:/usr/local/bin:/usr/sbin:/usr/bin:/sbin:/bin", "LC_ALL": "C.UTF-8", "HOME": "/"}
        who = (f"--userspec={user}",) if user else ()
        words = ("chroot", *who, self.root, "sh", "-c", f"cd {shlex.quote(folder)} && exec 2>&1; {command}")
        env |= {"DEBIAN_FRONTEND": "noninteractive"}
        how = {"stdin": subprocess.DEVNULL, "capture_output": True, "timeout": LIMIT}
        ran = subprocess.run(words, env=env, check=False, **how)
        return ran.returncode, ran.stdout

    def does(self, command, **how):
        status, said = self.run(command, **how)
        demand(status == 0, f"{command}: status {status}, {said.decode(errors='replace')[-2_000:]}")
        return said

    def files(self):
        """Each file and folder of the system: its kind, mode and owner, and the sum of what it has."""
        found = {}
        for at, folders, names in os.walk(self.root):
            for name in (*folders, *names):
                path = os.path.join(at, name)
                found[os.path.relpath(path, self.root)] = looked_at(path)
        return found


def looked_at(path):
    it = os.lstat(path)
    has = ""
    if stat.S_ISLNK(it.st_mode):
        has = os.readlink(path)
    elif stat.S_ISREG(it.st_mode):
        with open(path, "rb") as file:
            has = hashlib.file_digest(file, "sha256").hexdigest()
    return oct(it.st_mode), it.st_uid, it.st_gid, has


def make_system(folder, base):
    """A new system, or a copy of one. What debootstrap mounts is gone with the namespace that it runs in."""
    if base:
        subprocess.run(("cp", "--archive", f"{base}/.", folder), check=True)
        return
    words = ("unshare", "--mount", "--propagation", "private", "debootstrap", "--variant=minbase")
    ran = subprocess.run((*words, SUITE, folder, ARCHIVE), stdin=subprocess.DEVNULL, capture_output=True, check=False)
    demand(ran.returncode == 0, f"debootstrap: status {ran.returncode}, {ran.stdout[-2_000:].decode()}")


def lines_of_readme(word, other):
    """The lines of "Install and remove" that begin with one of two words."""
    section = text_of("README.md").partition("\n## Install and remove\n")[2].partition("\n## ")[0]
    lines = [line.strip() for line in section.splitlines() if line.startswith("    ")]
    found = [line for line in lines if line.split()[0] in (word, other)]
    demand(bool(found), f"README.md shows no line of {word} or {other}")
    return found


def walks(system):
    """Each command of docs/WALK.md, by nobody, in a folder of its own beside the samples of the package."""
    system.does(f"mkdir /{ROOM}/walk && chown {NOBODY} /{ROOM}/walk")
    top = "$(readlink -f $(command -v parish) | sed s:/bin/parish$::)"
    folder = f"/{ROOM}/walk"
    system.does(f"cp -r {top}/share/doc/parish/samples .", user=NOBODY, folder=folder)
    count = 0
    for command, text in (step for walk in walks_of("docs/WALK.md") for step in walk):
        _, said = system.run(command.replace("./parish", "parish"), user=NOBODY, folder=folder)
        demand(said == text.encode(), f"{command}: {difference(text.encode(), said)}")
        count += 1
    return count


def differences(before, after):
    """What is another file than before, but for what apt and dpkg keep for themselves."""
    for name in sorted(before.keys() | after.keys()):
        if before.get(name) != after.get(name) and not (THEIR_LOGS.fullmatch(name) or THEIR_STATE.fullmatch(name)):
            yield f"{name}: {before.get(name)}, now {after.get(name)}"


def naming(system, files):
    """The files that speak of the package, but for the logs."""
    for name, (mode, _, _, _) in files.items():
        if stat.S_ISREG(int(mode, 8)) and not THEIR_LOGS.fullmatch(name):
            with open(system.path(name), "rb") as file:
                if b"parish" in name.encode() or b"parish" in file.read():
                    yield name


def is_as_before(system, before, named):
    shutil.rmtree(system.path(ROOM))
    after = system.files()
    found = list(differences(before, after))
    demand(not found, f"{len(found)} files are left or are others: {'; '.join(found[:10])}")
    found = sorted(set(naming(system, after)) - named)
    demand(not found, f"the package is named in {', '.join(found)}")
    demand(system.run("command -v parish")[0] != 0, "the program can still be called")


def begun(system, package):
    """The files before anything is brought along, which of them have the name in them, and the package in the room."""
    before = system.files()
    named = set(naming(system, before))
    os.makedirs(system.path(ROOM))
    os.chmod(system.path(ROOM), 0o755)
    shutil.copy(package, system.path(ROOM))
    return before, named


def another_version(system, package):
    """A later package takes the place of this one, and this one its place, as docs/KEEPING.md says of both ways."""
    tree, name = system.path(f"{ROOM}/tree"), os.path.basename(package)
    subprocess.run(("dpkg-deb", "--raw-extract", package, tree), check=True)
    control = os.path.join(tree, "DEBIAN", "control")
    subprocess.run(("sed", "-i", "s/^Version: .*/&+later/", control), check=True)
    later = ("dpkg-deb", "--root-owner-group", "--build", tree, system.path(f"{ROOM}/later.deb"))
    subprocess.run(later, check=True, capture_output=True)
    for file, words, ending in (("later.deb", "", b"+later"), (name, "--allow-downgrades ", b"")):
        system.does(f"apt-get install -y {words}./{file}", folder=f"/{ROOM}")
        version = system.does("dpkg-query --show --showformat='${Version}' parish")
        demand(version == name.split("_")[1].encode() + ending, f"{file}: the version is {shown(version)} then")
        demand(system.does("dpkg --verify parish") == b"", f"{file}: dpkg finds files that are others")


def debian_package(system, package):
    before, named = begun(system, package)
    for line in lines_of_readme("apt-get", "apt"):
        if " install " in line:
            system.does(line.replace(" install ", " install -y "), folder=f"/{ROOM}")
    demand(system.does("dpkg --verify parish") == b"", "dpkg finds files that are others")
    needs = system.does("dpkg-query --show --showformat='${Depends}' parish").decode()
    libc = re.fullmatch(r"libc6 \(>= ([0-9.]+)\)", needs)
    told = libc is not None and f" glibc {libc[1]} " in text_of("README.md")
    demand(told, f"README.md does not say that the program needs {needs}")
    system.does("sha256sum --check --strict --quiet share/doc/parish/MANIFEST", user=NOBODY, folder="/usr")
    print(f"{walks(system)} commands of docs/WALK.md print what they should", flush=True)
    another_version(system, package)
    for line in lines_of_readme("apt-get", "apt"):
        if " remove " in line:
            system.does(line.replace(" remove ", " remove -y "), folder=f"/{ROOM}")
    status, said = system.run("dpkg-query --show parish")
    demand(status != 0, f"dpkg still knows it: {shown(said)}")
    is_as_before(system, before, named)


def tarball(system, package):
    before, named = begun(system, package)
    for line in lines_of_readme("tar", "ln"):
        system.does(line, folder=f"/{ROOM}")
    top = "$(dirname $(dirname $(readlink -f /usr/local/bin/parish)))"
    system.does(f"cd {top} && sha256sum --check --strict --quiet share/doc/parish/MANIFEST", user=NOBODY)
    print(f"{walks(system)} commands of docs/WALK.md print what they should", flush=True)
    for line in lines_of_readme("rm", "rmdir"):
        if "/usr/local" in line:
            system.does(line, folder=f"/{ROOM}")
    is_as_before(system, before, named)


def judged(system, package):
    """lintian, in the same system, since what it brings along is not wanted on every machine."""
    os.makedirs(system.path(ROOM))
    shutil.copy(package, system.path(ROOM))
    system.does("apt-get update && apt-get install -y --no-install-recommends lintian groff man-db")
    _, said = system.run(f"lintian --info --display-info --pedantic --allow-root /{ROOM}/*.deb")
    print(said.decode(), end="", flush=True)
    found = re.findall(r"^[EW]: .*$", said.decode(), re.MULTILINE)
    demand(not found, f"lintian: {'; '.join(found)}")


def one(folder, pattern):
    found = glob.glob(os.path.join(folder, pattern))
    if len(found) != 1:
        sys.exit(f"long_packages: {folder} has {len(found)} files {pattern}: ./release makes one")
    return found[0]


def main() -> int:
    words = argparse.ArgumentParser(description="Installs and removes the packages in a clean Debian 12.")
    words.add_argument("--base", metavar="FOLDER")
    words.add_argument("--lintian", action="store_true")
    words.add_argument("folder", nargs="?", default=os.path.join(ROOT, "out"))
    given = words.parse_args()
    deb, tar = one(given.folder, "parish_*_amd64.deb"), one(given.folder, "parish-*-x86_64-linux.tar.gz")
    passed = 0
    with tempfile.TemporaryDirectory() as folder:
        os.chmod(folder, 0o755)
        system = System(folder)
        cases = [
            Case("a clean Debian 12 is made", lambda: make_system(folder, given.base)),
            Case("the Debian package comes and goes", lambda: debian_package(system, deb)),
            Case("the tarball comes and goes", lambda: tarball(system, tar)),
            *([Case("lintian has no error and no warning", lambda: judged(system, deb))] if given.lintian else []),
        ]
        for case in cases:
            why, seconds = outcome_of(case)
            print(f"{case.name}: {why or 'passed'} ({seconds:.0f} s)", flush=True)
            if why is not None:
                break  # the system is not clean for what follows
            passed += 1
    print(f"{passed} passed, {len(cases) - passed} failed")
    return 1 if passed < len(cases) else 0


if __name__ == "__main__":
    sys.exit(main())
