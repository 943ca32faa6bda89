"""Byte files that are wrong: a name, the command's words, the bytes, and the line that is told. The bytes stand in in.bin, and two texts in a.txt and c.txt."""
from bad_texts import TASK

RECORD = b"TK" + b"\1\0\0\0" + b"\2\0\0\0" + b"\3\0\0\0" + b"\0\1"
ONE = b"\1" + RECORD
CUT = "; no text stands for this, so cut the file there"


def task(C, D, T, m, K):
    return b"TK" + b"".join(number.to_bytes(4, "little") for number in (C, D, T)) + bytes([m, K])


def event(kind, place=0, job=0, time=0):
    return b"EV" + bytes([kind, place]) + job.to_bytes(8, "little") + time.to_bytes(8, "little")


TABLES = [
    ("no tasks", "list in.bin", b"\0", "in.bin: table refused 1 at 0: the first byte says 0 tasks, and 1 to 16 are needed"),
    ("17 tasks", "list in.bin", b"\x11" + RECORD * 17, "in.bin: table refused 1 at 0: the first byte says 17 tasks, and 1 to 16 are needed"),
    ("a table that is cut", "check in.bin", ONE[:-1], "in.bin: table refused 1 at 0: the first byte says 1 task, so 16 bytes have to follow, and 15 do"),
    ("two tasks, and one is there", "list --json in.bin", b"\2" + RECORD,
     "in.bin: table refused 1 at 0: the first byte says 2 tasks, so 32 bytes have to follow, and 16 do"),
    ("no mark", "timeline in.bin -o out.svg", b"\1tk" + RECORD[2:],
     "in.bin: table refused 2 at 0: byte 1 begins no table record: it and the next have to be 54 4B"),
    ("no second mark", "text in.bin -o out.txt", b"\2" + RECORD + b"TX" + RECORD[2:],
     "in.bin: table refused 2 at 1: byte 17 begins no table record: it and the next have to be 54 4B"),
    ("D is smaller than C", "list in.bin", b"\2" + RECORD + task(9, 7, 8, 1, 3), "in.bin: table refused 3 at 1: D is 7 and C is 9, and D has to be at least C"),
    ("T is past its limit", "check --json in.bin", b"\1" + task(1, 2, 4294967295, 0, 1),
     "in.bin: table refused 3 at 0: T is 4294967295, and it has to be at most 1000000"),
    ("K is 0", "timeline --json in.bin", b"\1" + task(1, 2, 3, 0, 0), "in.bin: table refused 4 at 0: K is 0, and it has to be from 1 to 64"),
    ("a hard task with K 9", "text in.bin", b"\2" + RECORD + task(1, 2, 3, 0, 9),
     "in.bin: table refused 4 at 1: m is 0 and K is 9, and a hard task, with m 0, has to have K 1"),
    ("a table of two tasks whose count says one", "check in.bin", b"\1" + RECORD * 2,
     "in.bin: the first byte says 1 task, and byte 17, where the log has to begin, begins no event record (45 56); look whether the count of tasks is right"),
    ("junk with zero bytes", "list in.bin", b"PK\3\4\x14\0\0\0",
     "in.bin:1: a character that is no text, '\\x03', stands here; take it out, and save the file as UTF-8 text"),
]

LOGS = [
    ("a log too long", "list in.bin", ONE + event(0) * 3276, "in.bin: the log is too long: the file has 65,537 bytes, and 65,536 are listed; cut the log"),
    ("bytes that are text already", "text a.txt", None, "a.txt: this is no file of bytes; 'brumerola list' and 'brumerola bytes' read text"),
    ("bytes where a text is needed", "bytes in.bin -o out.bin", ONE,
     "in.bin: this is a file of bytes already; 'brumerola text' makes text of it"),
    ("a log that ends within a record", "text in.bin -o out.txt", ONE + event(0) + event(0)[:19],
     "in.bin: stop 5 at 20: event 2, from byte 37 of the file on: fewer than the 20 bytes of an event record are left" + CUT),
    ("an event without its mark", "text in.bin", ONE + b"E" + event(0),
     "in.bin: stop 6 at 0: event 1, from byte 17 of the file on: no event record begins here: its first two bytes are not 45 56" + CUT),
    ("a kind of 3", "text in.bin -o out.txt", b"\2" + RECORD * 2 + event(0) * 2 + event(3),
     "in.bin: stop 7 at 40: event 3, from byte 73 of the file on: the kind is 3 or more" + CUT),
    ("a tick with a position", "text in.bin", ONE + event(0, 1),
     "in.bin: stop 8 at 0: event 1, from byte 17 of the file on: a tick or release has a number in a field that has to be 0" + CUT),
    ("a release with a job", "text in.bin", ONE + event(1, 0, 1),
     "in.bin: stop 8 at 0: event 1, from byte 17 of the file on: a tick or release has a number in a field that has to be 0" + CUT),
]

NAMES = [
    ("names of another table", "list in.bin --names a.txt", b"\1" + task(1, 2, 4, 0, 1),
     "a.txt: its table is not that of in.bin, so its names would be wrong; give the text that the bytes were made from"),
    ("names of a table with another K", "list in.bin --names c.txt", b"\1" + task(1, 2, 3, 1, 3),
     "c.txt: its table is not that of in.bin, so its names would be wrong; give the text that the bytes were made from"),
    ("names of a shorter table", "text in.bin --names a.txt -o out.txt", b"\2" + RECORD * 2,
     "a.txt: its table is not that of in.bin, so its names would be wrong; give the text that the bytes were made from"),
    ("names from bytes", "check in.bin --names in.bin", ONE,
     "in.bin: this is a file of bytes, which has no names; give the text that the bytes were made from"),
    ("names from a file that is not there", "timeline in.bin --names b.txt -o out.svg", ONE, "b.txt: there is no such file or folder"),
    ("names for a text", "list a.txt --names a.txt", None, "a.txt: this is text and has names; --names is for a file of bytes"),
    ("names for the plain listing", "list in.bin --plain --names a.txt", ONE, "brumerola list: --plain shows no names, so leave --names out"),
]

FILES = {"a.txt": TASK, "c.txt": "task a C 1 D 2 T 3 m 1 K 2\n"}
CASES = TABLES + LOGS + NAMES
