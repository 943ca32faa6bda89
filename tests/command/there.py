"""Where the command is, how it is run as a process or called in this one, and the list of what differs."""
import contextlib
import functools
import os
import pathlib
import subprocess
import sys
import tempfile
from collections import namedtuple
from unittest import mock

ROOT = pathlib.Path(__file__).resolve().parent.parent.parent
COMMAND = ROOT / "brumerola"
EXAMPLE = ROOT / "examples/line.txt"
PYTHON = [sys.executable, "-S", "-B"]  # the standard library is all that is needed, and starts sooner alone
Ended = namedtuple("Ended", "status out err")
differs = []


def hold(what, found, wanted):
    """Notes it where what was found is not what is wanted."""
    if found != wanted:
        differs.append(f"{what}: found {short(found)}, and {short(wanted)} is right")
    return found == wanted


def short(value, most=700):
    told = value if isinstance(value, str) and "\n" not in value else repr(value)
    return told if len(told) <= most else told[:most] + ".."


def run(args, folder, stdin=b"", command=COMMAND, **more):
    """Runs the command as a process, in a folder; a stream can be given as subprocess takes it."""
    streams = {"input": stdin, "stdout": subprocess.PIPE, "stderr": subprocess.PIPE, **more}
    if "stdin" in more:
        del streams["input"]
    done = subprocess.run([*PYTHON, str(command), *args], cwd=folder, **streams)
    return Ended(done.returncode, done.stdout or b"", (done.stderr or b"").decode())


def call(args, folder):
    """Calls the command in this process, as if in that folder: some twenty times as fast."""
    from command.main import main

    before = os.getcwd()
    os.chdir(folder)
    with tempfile.TemporaryFile() as out, tempfile.TemporaryFile() as err, mock.patch.object(sys, "argv", ["brumerola", *args]):
        with streams(out, err):
            try:
                status = main()
            except SystemExit as ended:
                status = ended.code
            except Exception as wrong:
                status = f"a traceback, {wrong!r}"
        os.chdir(before)
        out.seek(0)
        err.seek(0)
        return Ended(status, out.read(), err.read().decode())


@contextlib.contextmanager
def streams(out, err):
    """Standard output and error go into these files for a while, and standard input is empty."""
    sys.stdout.flush()
    sys.stderr.flush()
    kept = [os.dup(number) for number in range(3)]
    with open(os.devnull) as nothing:
        for number, file in enumerate((nothing, out, err)):
            os.dup2(file.fileno(), number)
    try:
        yield
    finally:
        sys.stdout.flush()
        sys.stderr.flush()
        for number, file in enumerate(kept):
            os.dup2(file, number)
            os.close(file)


def folder_with(files):
    """A new folder with these files: text or bytes by name."""
    folder = tempfile.TemporaryDirectory(prefix="brumerola-")
    for name, content in files.items():
        pathlib.Path(folder.name, name).write_bytes(content.encode() if isinstance(content, str) else content)
    return folder


def inside(folder):
    """All that is in a folder, by name: a file's bytes, and None for what is no file."""
    return {str(path.relative_to(folder)): path.read_bytes() if path.is_file() else None for path in pathlib.Path(folder).rglob("*")}


def ready():
    """Builds the program where it has to be, once; calls in this process do not ask again, list an input once, and make the words of a command line once."""
    from command import main, programs

    programs.built()
    programs.built = lambda: None
    programs.listing = functools.lru_cache(None)(programs.listing)
    main.parser = functools.lru_cache(None)(main.parser)
