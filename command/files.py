"""Files that are read whole, and written whole or not at all; '-' is standard input or standard output."""
import os
import stat

from .wrong import Wrong, of_system, printable

MOST = 16 * 2**20  # more than any text of a log that can be listed


def name_of(path):
    return "standard input" if path == "-" else printable(path)


def read(path):
    """The bytes of a file, or of standard input."""
    if not path:
        raise Wrong("brumerola: the file's name is empty; give the name of a file")
    try:
        with open(0 if path == "-" else path, "rb", closefd=path != "-") as file:
            raw = file.read(MOST + 1)
    except (OSError, ValueError) as wrong:
        raise told(name_of(path), wrong) from None
    if len(raw) > MOST:
        raise Wrong(f"{name_of(path)}: this file has more than {MOST // 2**20} MiB, and no table and log that can be listed is so long")
    return raw


def told(what, wrong):
    """An error of a file; Python has one of its own, for a name with a zero byte."""
    return of_system(what, wrong) if isinstance(wrong, OSError) else Wrong(f"{what}: {wrong}")


def same(path, other):
    """Whether both names lead to one file."""
    try:
        return os.path.samefile(path, other)
    except OSError:
        return False


def ready(path, *sources):
    """Before anything is done: whether `path` can be written, and is none of the files that are read."""
    if path == "-":
        return
    name = printable(path)
    if not path:
        raise Wrong("brumerola: the output's name is empty; give a name after -o")
    if any(source not in (None, "-") and same(path, source) for source in sources):
        raise Wrong(f"{name}: this file is read; give another name after -o")
    if os.path.isdir(path):
        raise Wrong(f"{name}: this is a folder; give the name of a file after -o")
    folder = os.path.dirname(path) or "."
    if not os.path.exists(path) and not os.path.isdir(folder):
        raise Wrong(f"{name}: there is no folder {printable(folder)}; make it first")
    if not os.access(path if os.path.exists(path) else folder, os.W_OK):
        raise Wrong(f"{name}: its permissions forbid to write it; give another name after -o")


def write(path, content):
    """Writes a file beside its place and moves it there once it is whole."""
    if path == "-":
        say(content)
        return
    try:
        if in_place(path):
            with open(path, "wb") as file:
                file.write(content)
        else:
            move(os.path.realpath(path), content)
    except (OSError, ValueError) as wrong:
        raise told(printable(path), wrong) from None


def in_place(path):
    """What is no plain file, such as a pipe, is written where it is; so is one in a folder that takes no other."""
    return os.path.exists(path) and (not os.path.isfile(path) or not os.access(os.path.dirname(os.path.realpath(path)), os.W_OK))


def move(place, content):
    part = f"{place}.{os.getpid()}.part"
    try:
        with open(part, "xb") as file:
            file.write(content)
        if os.path.exists(place):
            os.chmod(part, stat.S_IMODE(os.stat(place).st_mode))
        os.replace(part, place)
    except BaseException:
        if os.path.exists(part):
            os.unlink(part)
        raise


def say(content):
    """Writes to standard output; a reader that has gone, such as head, is no error."""
    try:
        with open(1, "wb", closefd=False) as file:
            file.write(content)
    except BrokenPipeError:
        pass
    except OSError as wrong:
        raise told("standard output", wrong) from None


def warn(words):
    """Writes a line to standard error; where that is lost too, the status alone tells."""
    try:
        os.write(2, (printable(words) + "\n").encode("utf-8", "backslashreplace"))
    except OSError:
        pass
