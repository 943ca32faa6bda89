"""Inputs and uses that look odd and are right: status 0, nothing on standard error, and the answer that is meant."""
import os

from bad_bytes import ONE, event
from bad_texts import FULL, SIXTEEN, TASK
from page import Page
from there import call, folder_with, hold, run

PLAIN = TASK + "release a at 0\ncomplete a 1 at 1\n"
BYTES = ONE + event(1) + event(2, 0, 1, 1)

# a name, a text, and the bytes that it stands for
TEXTS = [
    ("a plain text", PLAIN, BYTES),
    ("an accent in a comment", PLAIN + "# caf\u00e9 \u6d82\u5e03\n", BYTES),
    ("an accent in a name", PLAIN.replace(" a ", " d\u00fcse "), BYTES),
    ("a name spelled in two ways", PLAIN.replace(" a ", " e\u0301 ", 1).replace(" a ", " \u00e9 "), BYTES),
    ("lines that end in two bytes", PLAIN.replace("\n", "\r\n"), BYTES),
    ("a byte order mark", "\ufeff" + PLAIN, BYTES),
    ("tabs", PLAIN.replace(" ", "\t"), BYTES),
    ("spaces around", PLAIN.replace(" ", "   ").replace("\n", "  \n   "), BYTES),
    ("no newline at the end", PLAIN[:-1], BYTES),
    ("empty lines and comments", "\n# a\n\n" + PLAIN.replace("\n", " # b # c\n\n"), BYTES),
    ("a comment behind a number", PLAIN.replace("\n", "#x\n"), BYTES),
    ("positions", PLAIN.replace("release a", "release @0").replace("complete a", "complete @00"), BYTES),
    ("a position past the table", PLAIN + "release @1 at 2\nrelease @255 at 2\n", BYTES + event(1, 1, 0, 2) + event(1, 255, 0, 2)),
    ("leading zeros", PLAIN.replace(" 1", " " + "0" * 30 + "1"), BYTES),
    ("an empty log", TASK, ONE),
    ("the largest numbers of an event", TASK + "complete @255 18446744073709551615 at 18446744073709551615", ONE + event(2, 255, 2**64 - 1, 2**64 - 1)),
    ("a name of 24 characters", PLAIN.replace(" a ", " abcdefghijklmnopqrstuvwx "), BYTES),
    ("a name of all kinds of characters", PLAIN.replace(" a ", " a_B-3.\u03b2 "), BYTES),
    ("words of the form as names", PLAIN.replace(" a ", " task "), BYTES),
    ("16 tasks", SIXTEEN, b"\x10" + ONE[1:] * 16),
    ("as many events as fit", FULL, ONE + event(0) * 3275),
    ("the largest task", "task a C 1000000 D 1000000 T 1000000 m 63 K 64", b"\1TK" + b"\x40\x42\x0f\0" * 3 + b"\x3f\x40"),
]

# names of files that a shell user meets; behind -- a dash is a part of the name
FILES = [
    ("a space in a name", "my line.txt", ["bytes", "my line.txt", "-o", "my line.bin"], "my line.bin"),
    ("a dash in front", "-line.txt", ["bytes", "-o", "out.bin", "--", "-line.txt"], "out.bin"),
    ("an accent in a file's name", "\u00e9.txt", ["bytes", "\u00e9.txt", "-o", "\u00fc.bin"], "\u00fc.bin"),
    ("an older output", "in.txt", ["bytes", "in.txt", "-o", "old.bin"], "old.bin"),
    ("an output through a link", "in.txt", ["bytes", "in.txt", "-o", "link"], "old.bin"),
]


def texts():
    for name, text, raw in TEXTS:
        with folder_with({"in.txt": text}) as folder:
            found = call(["bytes", "in.txt", "-o", "out.bin"], folder)
            if hold(name, (*found,), (0, b"", "")):
                hold(f"{name}: bytes", open(f"{folder}/out.bin", "rb").read(), raw)
            for args in (["list", "in.txt"], ["check", "in.txt"], ["timeline", "in.txt", "-o", "out.svg"]):
                found = call(args, folder)
                hold(f"{name}: {args[0]}", (found.status, found.err), (1 if (name, args[0]) == ("16 tasks", "check") else 0, ""))


def files():
    for name, source, args, made in FILES:
        with folder_with({source: PLAIN, "old.bin": "older"}) as folder:
            os.chmod(f"{folder}/old.bin", 0o640)
            os.symlink("old.bin", f"{folder}/link")
            if hold(name, (*call(args, folder),), (0, b"", "")):
                hold(f"{name}: bytes", open(f"{folder}/{made}", "rb").read(), BYTES)
                hold(f"{name}: files", sorted(os.listdir(folder)), sorted({source, "old.bin", "link", made}))
            hold(f"{name}: permissions of an older output", os.stat(f"{folder}/old.bin").st_mode & 0o777, 0o640)
            hold(f"{name}: a link stays one", os.path.islink(f"{folder}/link"), True)


def marked_names():
    """A file's name with letters that a picture has to spell out."""
    with folder_with({"a&b <c> \"d\".txt": PLAIN}) as folder:
        hold("letters of a file's name", (*call(["timeline", "a&b <c> \"d\".txt", "-o", "out.svg"], folder),), (0, b"", ""))
        hold("letters of a file's name", Page(open(f"{folder}/out.svg").read()).words[0], "a&b <c> \"d\".txt")


def by_standard_input():
    with folder_with({}) as folder:
        listed = b"task 0 w 0 h 1 bound 1\nevent 1 run 0 class 0\nevent 2 idle\ntask 0 met 1 missed 0 open 0 window 0 broken 0\n"
        hold("a text by standard input", (*run(["list", "--plain", "-"], folder, PLAIN.encode()),), (0, listed, ""))
        hold("bytes by standard input", (*run(["list", "--plain", "-"], folder, BYTES),), (0, listed, ""))
        hold("a picture into a stream", run(["timeline", "-", "-o", "/dev/stdout"], folder, BYTES).out[:5], b"<svg ")


def look():
    texts()
    files()
    marked_names()
    by_standard_input()
    return f"{len(TEXTS) + len(FILES) + 4} right ones that look odd"
