"""What a person is told in one line, with status 2; and how words and numbers are shown in it."""
import errno


class Wrong(Exception):
    """The one line: what is wrong, where, and what to do."""


# how an error of the system is told of a file
TOLD = {
    errno.ENOENT: "there is no such file or folder",
    errno.ENOTDIR: "a part of this path is a file and no folder",
    errno.EISDIR: "this is a folder, and a file is needed",
    errno.EACCES: "its permissions forbid it",
    errno.EBADF: "it is closed; open it",
    errno.EROFS: "it lies on a disk that is read-only",
    errno.ENOSPC: "no space is left on its disk",
    errno.ENAMETOOLONG: "the name is too long",
    errno.ELOOP: "its links lead round in a circle",
}


def of_system(what, wrong):
    """An error of the system, told of WHAT."""
    return Wrong(f"{what}: {TOLD.get(wrong.errno, wrong.strerror or str(wrong))}")


def printable(words):
    """Words with what a terminal or a picture would not take as a letter spelled out."""
    return "".join(c if c.isprintable() else c.encode("unicode_escape").decode("ascii") for c in words)


def shown(word, most=40):
    """A word of the input as an error shows it; a long one is cut."""
    safe = printable(word)
    return f"'{safe}'" if len(safe) <= most else f"'{safe[:most]}..'"


def counted(number, one, many=None):
    """1 task, 2 tasks, 3,276 events."""
    return f"{number:,} {one if number == 1 else many or one + 's'}"


def listed(words):
    """a, b and c."""
    words = list(words)
    return " and ".join([", ".join(words[:-1]), words[-1]] if len(words) > 1 else words)
