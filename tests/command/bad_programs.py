"""A copy of the command whose listing program is not there, cannot be built, or says what it should not: one line more tells it, and nothing is printed."""
import os
import pathlib
import shutil
from unittest import mock

from bad_uses import GOOD
from there import COMMAND, ROOT, call, folder_with, run

NO_RT = "brumerola: rt is not here, and the listing program has to be built: install the Rattle toolchain, and put its bin folder into PATH"
NOT_STARTED = "brumerola: the listing program could not be built or started"
NOT_BUILT = "brumerola: the listing program could not be proved and built; the lines above say why"


def copied(folder):
    """The command alone, with nothing that is built."""
    shutil.copy(COMMAND, folder)
    shutil.copytree(ROOT / "command", f"{folder}/command", ignore=shutil.ignore_patterns("__pycache__"))
    pathlib.Path(folder, "crates.txt").write_text("")
    pathlib.Path(folder, "crates/listing").mkdir(parents=True)


def script(path, words):
    path = pathlib.Path(path)
    path.parent.mkdir(parents=True, exist_ok=True)
    path.write_text(f"#!/bin/sh\n{words}\n")
    path.chmod(0o755)


def ended(folder, path):
    """One run of the copy, with these folders to look for rt in."""
    return run(["list", "good.txt"], folder, command=f"{folder}/brumerola", env={"PATH": path, "HOME": folder})


def last_line(found):
    """The run without the lines before the last: that it builds, and what rt says."""
    return found._replace(err="".join(found.err.splitlines(True)[-1:]))


def look(ends):
    with folder_with({"good.txt": GOOD}) as folder:
        copied(folder)
        tools = f"{folder}/tools:{os.environ['PATH']}"
        ends("no rt", ended(folder, f"{folder}/none"), NO_RT)
        script(f"{folder}/tools/rt", "echo 'rt: laws: a goal is open' >&2; exit 1")
        ends("rt proves it not", last_line(ended(folder, tools)), NOT_BUILT)
        script(f"{folder}/tools/rt", "exit 0")
        ends("rt builds nothing", last_line(ended(folder, tools)), NOT_BUILT)
        for name, program, line in PROGRAMS:
            script(f"{folder}/listing", program)
            ends(name, called(f"{folder}/listing", folder), line)
        ends("the program is gone", called(f"{folder}/none", folder), f"{NOT_STARTED}: No such file or directory: {folder}/none")
    return 4 + len(PROGRAMS)


def called(program, folder):
    """The command, called with this program in the place of the proved one."""
    from command import programs

    with mock.patch.object(programs, "BINARY", program), mock.patch.object(programs, "listing", programs.listing.__wrapped__):
        return call(["list", "good.txt"], folder)


PROGRAMS = [
    ("the program says a word", "echo task 0; echo 'listing: lost' >&2", "brumerola: the listing program ended with 0: listing: lost"),
    ("the program fails", "exit 3", "brumerola: the listing program ended with 3: it said nothing"),
    ("the program is killed", "kill -9 $$", "brumerola: the listing program ended with -9: it said nothing"),
    ("the program prints another thing", "echo hello",
     "brumerola: the listing has a line that this command does not know, 'hello'; build both from the same sources"),
    ("the program prints nothing", "", "brumerola: the listing has a line that this command does not know, ''; build both from the same sources"),
]
