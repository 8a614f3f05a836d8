"""The commands `./parish` and `./test`, in a small copy with an `rt` that proves nothing.

The copy has the two commands, what they call in tests/, and crates of one file each.  Its `rt`
"builds" by copying a script, and notes each call.
"""

from __future__ import annotations

import contextlib
import errno
import os
import pty
import shutil
import signal
import stat
import subprocess
import tempfile
import threading
import time
from dataclasses import dataclass

from harness import ROOT, Case, Failed, Outcome, demand, expect, run, shown

# All that the two commands may call beside rt.
NEEDED = "bash cp dirname env grep mkdir mktemp mv python3 readlink rm sed sh tail tee".split()
# What their stand-ins call.
NEEDED_HERE = "cat chmod find sleep sort".split()
TRIES = 20

RT = """#!/bin/sh
# Stands in for the toolchain.
here=here
[ "$PWD" = "$COPY" ] || here=apart
echo "$* $here" >>"$RT_CALLS"
case $1 in
version) echo "kit ${KIT:-1}" ;;
ci)
    cat # must find nothing: standard input is the program's
    [ ! -e "$COPY/fails" ] || { echo '3 passed, 1 failed'; exit 1; }
    find . -type f | sort >"$RT_CALLS.$here"
    if [ -e "$COPY/waits" ]; then
        echo $$ >"$RT_CALLS.pid"
        exec sleep 60
    fi
    sleep 0.2
    echo 'rt: low is kept: an earlier run on this machine proved the same files over the same libraries'
    out=crates/parish/out
    rm -rf $out && mkdir $out && cp crates/parish/src/main.rt $out/parish && chmod +x $out/parish
    echo 'rt: parish proved'
    echo 'rt: ok'
    echo '3 passed, 0 failed'
    [ ! -e "$COPY/lies" ] || exit 1
    ;;
esac
"""

PROGRAM = """#!/bin/sh
echo "words: $*"
pwd
cat
echo told >&2
exit 7
"""

RUNNER = "print('2 passed, 0 failed')\n"


@dataclass
class Copy:
    """The copy, and the environment in which its commands run."""

    folder: str
    env: dict

    def path(self, *names):
        return os.path.join(self.folder, *names)

    def write(self, name, text, executable=False):
        path = self.path(*name.split("/"))
        os.makedirs(os.path.dirname(path), exist_ok=True)
        with open(path, "w", encoding="utf-8") as file:
            file.write(text)
        if executable:
            os.chmod(path, os.stat(path).st_mode | stat.S_IXUSR)

    def run(self, name, *words, given=b"", **how):
        # A process that another case begins has, for a moment, the files open that this one has just written.
        for _ in range(TRIES):
            try:
                return run((self.path(name),), words, given, **{"env": self.env, **how})
            except OSError as error:
                if error.errno != errno.ETXTBSY:
                    raise
                time.sleep(0.1)
        raise Failed(f"{name} could not be started {TRIES} times")

    def made(self):
        """How often ./parish has made the program: `rt ci`, in a folder of its own."""
        try:
            with open(self.env["RT_CALLS"], encoding="utf-8") as calls:
                return sum(line == "ci apart\n" for line in calls)
        except FileNotFoundError:
            return 0


def copied(folder):
    folder = os.path.realpath(folder)
    tools = os.path.join(folder, "tools")
    os.makedirs(tools)
    for name in (*NEEDED, *NEEDED_HERE):
        found = shutil.which(name)
        demand(found is not None, f"there is no {name}")
        os.symlink(os.path.realpath(found), os.path.join(tools, name))
    copy = Copy(
        os.path.join(folder, "copy"),
        {
            "PATH": tools,
            "COPY": os.path.join(folder, "copy"),
            "RT_CALLS": os.path.join(folder, "calls"),
            "TMPDIR": folder,
        },
    )
    os.makedirs(copy.path("tests"))
    for name in ("parish", "test", "tests/sources_sum", "tests/how_far"):
        shutil.copy(os.path.join(ROOT, name), copy.path(name))
    copy.write("crates.txt", "# a comment: here\nlow:\nother: low\nparish: low clap\n")
    for crate in ("low", "other"):
        copy.write(f"crates/{crate}/src/lib.rt", "")
    copy.write("crates/parish/src/main.rt", PROGRAM)
    copy.write("tests/run.py", RUNNER)
    with open(os.path.join(tools, "rt"), "w", encoding="utf-8") as file:
        file.write(RT)
    os.chmod(os.path.join(tools, "rt"), 0o755)
    return copy


PASSED_ON = "words: norm a  b\n{cwd}\ninput"


def passes_on(copy, **how):
    """A run of ./parish: the words, the folder, the input and the status are the program's."""
    cwd = copy.path("tests")
    got = copy.run("parish", "norm", "a  b", given=b"input", cwd=cwd, **how)
    wanted = PASSED_ON.format(cwd=cwd).encode()
    expect(Outcome(got.out, b"", got.status), Outcome(wanted, b"", 7))
    return got.err


def demand_silent(err):
    demand(err == b"told\n", f"standard error: wanted only the program's, got {shown(err)}")


def last_line(got):
    return got.out.splitlines()[-1:]


PROVED = b"parish: 2 of 2 crates proved, 0 minutes\n"
LOG = "crates/parish/out/made.log"


def demand_log(copy, err, has):
    """What rt said is in a file that standard error names."""
    named = f"parish: what the kit said is in {copy.path(LOG)}\n".encode()
    demand(named in err, f"it does not say where the kit's words are: {shown(err)}")
    with open(copy.path(LOG), "rb") as log:
        said = log.read()
    demand(has in said, f"the log: {shown(said)}")
    out = os.listdir(os.path.dirname(copy.path(LOG)))
    demand(sum(name.endswith(".log") for name in out) == 1, f"more than one log: {out}")


def made_once(copy):
    err = passes_on(copy)
    lines = err.splitlines(keepends=True)
    demand(b"minutes" in lines[0], f"it does not say how long it takes: {shown(err)}")
    demand(lines[1] == PROVED, f"it does not say how far it is: {shown(err)}")
    demand(lines[3:] == [b"told\n"], f"it says more: {shown(err)}")
    demand_log(copy, err, b"rt: parish proved\nrt: ok\n3 passed, 0 failed\n")
    demand_silent(passes_on(copy))
    demand(copy.made() == 1, "it was made again")


def on_a_terminal(copy):
    ours, theirs = pty.openpty()
    os.set_blocking(ours, False)
    told = b""
    try:
        passes_on(copy, stderr=theirs)
        with contextlib.suppress(BlockingIOError):
            while True:
                told += os.read(ours, 65_536)
    finally:
        os.close(theirs)
        os.close(ours)
    at_first = PROVED.replace(b"2 of", b"0 of")
    demand(told.count(b"\n") == 4, f"it is not on one line: {shown(told)}")
    one_line = told.split(b"\n")[1].split(b"\r")
    demand([one_line[1], one_line[-2]] == [at_first[:-1], PROVED[:-1]], f"how far it is: {one_line}")


def interrupted(copy, number, to_all):
    """A signal while rt works: nothing of it goes on, nothing is made, and it is made the next time."""
    copy.write("waits", "")
    how = {"stdin": subprocess.DEVNULL, "stdout": subprocess.PIPE, "stderr": subprocess.PIPE}
    ran = subprocess.Popen([copy.path("parish"), "norm"], env=copy.env, start_new_session=True, **how)
    pid = copy.env["RT_CALLS"] + ".pid"
    while ran.poll() is None and not (os.path.exists(pid) and os.path.getsize(pid)):
        time.sleep(0.01)
    (os.killpg if to_all else os.kill)(ran.pid, number)
    out, err = ran.communicate(timeout=120)
    demand((ran.returncode, out) == (3, b""), f"wanted status 3 and no output, got {ran.returncode}, {shown(out)}")
    demand_log(copy, err, b"")
    with open(pid, encoding="utf-8") as file:
        demand(not os.path.exists(f"/proc/{int(file.read())}"), "rt goes on")
    left = [name for name in os.listdir(copy.env["TMPDIR"]) if name.startswith("tmp.")]
    demand(not left, f"a folder is left: {left}")
    os.remove(copy.path("waits"))
    os.remove(pid)
    passes_on(copy)


def interrupted_each_way(copy):
    for number in (signal.SIGINT, signal.SIGTERM, signal.SIGHUP):
        for to_all in (False, True):
            interrupted(copy, number, to_all)
            copy.write("crates/low/src/lib.rt", f"// {number} {to_all}")


def made_again_after_an_edit(copy):
    passes_on(copy)
    made = 1
    for file, text in (
        ("crates/low/src/lib.rt", "// new"),
        ("crates/low/specs/New.antt", ""),
        ("crates/parish/proofs/main/Answers.antt", "--"),
        ("crates/parish/src/main.rt", PROGRAM + "# new"),
        ("crates.txt", "low:\nparish: low\n"),
    ):
        copy.write(file, text)
        passes_on(copy)
        made += 1
        demand(copy.made() == made, f"not made again after an edit of {file}")
    os.rename(copy.path("crates/low/specs/New.antt"), copy.path("crates/low/specs/Old.antt"))
    passes_on(copy)
    demand(copy.made() == made + 1, "not made again after a file has another name")
    copy.env["KIT"] = "2"
    passes_on(copy)
    demand(copy.made() == made + 2, "not made again for another kit")


def made_apart(copy):
    copy.write("HANDLES", "Handles allowed: Net.\n")
    copy.write("crates/low/must-fail/a.edit", "")
    copy.write("crates/low/proofs/Lib.antt", "")
    copy.write("crates/parish/args", "norm\n")
    passes_on(copy)
    with open(copy.env["RT_CALLS"] + ".apart", encoding="utf-8") as listed:
        found = listed.read().split()
    wanted = ("HANDLES", "crates.txt", "crates/low/proofs/Lib.antt", "crates/low/src/lib.rt", "crates/parish/args")
    demand(found == [f"./{name}" for name in (*wanted, "crates/parish/src/main.rt")], f"rt is given {found}")
    left = [name for name in os.listdir(copy.env["TMPDIR"]) if name.startswith("tmp.")]
    demand(not left, f"a folder is left: {left}")


def not_made_again(copy):
    passes_on(copy)
    for file in ("crates/other/src/lib.rt", "crates/low/must-fail/a.edit", "README.md"):
        copy.write(file, "new")
        demand_silent(passes_on(copy))
    demand(copy.made() == 1, "made again though nothing of it has changed")


def made_again_where_another_build_left_it(copy):
    passes_on(copy)
    copy.write("crates/parish/out/parish", "#!/bin/sh\necho of other sources\n", executable=True)
    passes_on(copy)
    os.remove(copy.path("crates/parish/out/parish"))
    passes_on(copy)
    demand(copy.made() == 3, "an executable of other sources was run")


def not_proved(copy):
    passes_on(copy)
    copy.write("fails", "")
    copy.write("crates/low/src/lib.rt", "wrong")
    for _ in range(2):
        got = copy.run("parish", "norm", given=b"input")
        demand(got.status == 3, f"status: wanted 3, got {got.status}")
        demand(got.out == b"", f"standard output: wanted nothing, got {shown(got.out)}")
        lines = (b"3 passed, 1 failed\n", b"parish: the program is not made: rt ci failed\n")
        demand(b"".join(lines) in got.err, f"standard error: {shown(got.err)}")
        demand_log(copy, got.err, lines[0])
    os.remove(copy.path("fails"))
    passes_on(copy)


def no_toolchain(copy):
    os.remove(os.path.join(copy.env["PATH"], "rt"))
    got = copy.run("parish", "norm", given=b"input")
    demand((got.status, got.out) == (3, b""), f"wanted status 3 and no output, got {got}")
    demand(got.err.count(b"\n") == 1 and b"rt" in got.err, f"standard error: {shown(got.err)}")


def two_at_a_time(copy):
    whys = []

    def one():
        try:
            passes_on(copy)
        except Exception as error:  # told by the test, not by the thread
            whys.append(str(error))

    threads = [threading.Thread(target=one) for _ in range(4)]
    for thread in threads:
        thread.start()
    for thread in threads:
        thread.join()
    demand(not whys, "; ".join(whys))
    demand_silent(passes_on(copy))


def by_a_link(copy):
    os.symlink(copy.path("parish"), copy.path("link"))
    got = copy.run("link", "norm")
    demand(got.out.startswith(b"words: norm\n"), f"standard output: {shown(got.out)}")


def closed_streams(copy):
    passes_on(copy)
    for closed in ("<&-", ">&-", "2>&-"):
        words = ("sh", "-c", f'exec "$@" {closed}', "sh", copy.path("parish"), "norm")
        got = run(words, env=copy.env)
        # its `echo` and `cat` may fail; its status is its own
        demand(got.status == 7, f"{closed}: status: wanted 7, got {got.status}")


def all_tests(copy):
    got = copy.run("test")
    demand(got.status == 0, f"status: wanted 0, got {got.status}, {shown(got.out)}")
    demand(last_line(got) == [b"5 passed, 0 failed"], f"the last line: {last_line(got)}")
    demand_silent(passes_on(copy))
    demand(copy.made() == 0, "./parish made again what ./test had left")


def all_tests_with(copy, crate, *folders):
    copy.write("crates.txt", f"low:\n{crate}: low\nparish: low\n")
    for folder in folders:
        got = copy.run("test")
        demand(got.status == 1, f"without tests/{folder}: wanted 1, got {got.status}")
        copy.write(f"tests/{folder}/run.py", "print('4 passed, 0 failed')\n")
    got = copy.run("test")
    demand(got.status == 0, f"status: wanted 0, got {got.status}, {shown(got.out)}")
    end = f"{5 + 4 * len(folders)} passed, 0 failed".encode()
    demand(last_line(got) == [end], f"the last line: {last_line(got)}")


def all_tests_with_dates(copy):
    all_tests_with(copy, "library_rows", "dates")


def all_tests_with_archive(copy):
    all_tests_with(copy, "archive_rows", "archive", "tables")


def all_tests_with_requests(copy):
    all_tests_with(copy, "request_rows", "requests")


def all_tests_with_sheets(copy):
    all_tests_with(copy, "state_rows", "masking", "sheets", "batches")


def tests_that_fail(copy):
    for text, end in (
        ("print('1 passed, 2 failed'); exit(1)\n", b"4 passed, 2 failed"),
        ("print('2 passed, 0 failed'); exit(1)\n", b"5 passed, 1 failed"),
        ("print('0 passed, 0 failed')\n", b"3 passed, 1 failed"),
        ("print('nothing')\n", b"3 passed, 1 failed"),
    ):
        copy.write("tests/run.py", text)
        got = copy.run("test")
        demand((got.status, last_line(got)) == (1, [end]), f"{text}: got {shown(got.out)}")


def proofs_that_fail(copy):
    copy.write("tests/run.py", "print('it ran')\n")
    for file, end in (("lies", b"3 passed, 1 failed"), ("fails", b"3 passed, 1 failed")):
        copy.write(file, "")
        got = copy.run("test")
        demand((got.status, last_line(got)) == (1, [end]), f"{file}: got {shown(got.out)}")
        demand(b"it ran" not in got.out, "the tests over the executable ran without proofs")
    os.remove(os.path.join(copy.env["PATH"], "rt"))
    got = copy.run("test")
    demand((got.status, last_line(got)) == (1, [b"0 passed, 1 failed"]), f"no rt: {shown(got.out)}")


SCRIPTS = (
    ("./parish makes the program once and passes all on", made_once),
    ("./parish tells on one line of a terminal how far it is", on_a_terminal),
    ("./parish is interrupted", interrupted_each_way),
    ("./parish makes the program again after an edit", made_again_after_an_edit),
    ("./parish makes the program of only its crates, in a folder that goes", made_apart),
    ("./parish makes nothing again where the program is the same", not_made_again),
    ("./parish runs no executable of other sources", made_again_where_another_build_left_it),
    ("./parish ends with 3 where the program is not proved", not_proved),
    ("./parish ends with 3 where there is no toolchain", no_toolchain),
    ("./parish may run several at a time", two_at_a_time),
    ("./parish may be called by a link", by_a_link),
    ("./parish passes closed streams on", closed_streams),
    ("./test adds its parts and leaves the program made", all_tests),
    ("./test runs the tests of dates where that crate is listed", all_tests_with_dates),
    ("./test runs the tests of the archive where that crate is listed", all_tests_with_archive),
    ("./test runs the tests of requests where that crate is listed", all_tests_with_requests),
    ("./test runs the tests of sheets where that crate is listed", all_tests_with_sheets),
    ("./test fails where its second part fails", tests_that_fail),
    ("./test runs no second part where the first fails", proofs_that_fail),
)


def in_a_copy(test):
    with tempfile.TemporaryDirectory() as folder:
        test(copied(folder))


def cases(_tools):
    for name, test in SCRIPTS:
        yield Case(f"scripts: {name}", lambda test=test: in_a_copy(test))
