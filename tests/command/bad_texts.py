"""Texts that are wrong: a name, the text, and the line that is told. Whichever command reads the text, it is the same line."""
TASK = "task a C 1 D 2 T 3 m 0 K 1\n"
SHAPE = "'task NAME C N D N T N m N K N'"
NUMBER = "a whole number from 0 to"
NO_NAME = "is no name; a name is a letter, then letters, digits, '_', '-' and '.'"
BEGIN = "begin it with task, release, complete, tick or #"
STRAY = "stands here; take it out, and save the file as UTF-8 text"
NO_TASK = f"in.txt: there is no task in it; a line such as {SHAPE} is one, with a number for each N"
FULL = TASK + "tick at 0\n" * 3275  # 1 + 16 + 20 * 3275 = 65,517 bytes: no event more fits into 65,536
SIXTEEN = "".join(f"task t{n} C 1 D 2 T 3 m 0 K 1\n" for n in range(16))

NUMBERS = [
    ("a word for C", "task a C x D 2 T 3 m 0 K 1", f"in.txt:1: C of a is 'x', and {NUMBER} 4,294,967,295 is needed"),
    ("a letter for a digit", TASK + "task b C 1 D 5O T 60 m 0 K 1", f"in.txt:2: D of b is '5O', and {NUMBER} 4,294,967,295 is needed"),
    ("a negative T", "task a C 1 D 2 T -3 m 0 K 1", f"in.txt:1: T of a is '-3', and {NUMBER} 4,294,967,295 is needed"),
    ("a negative m", "task a C 1 D 2 T 3 m -1 K 1", f"in.txt:1: m of a is '-1', and {NUMBER} 255 is needed"),
    ("K with a point", "task a C 1 D 2 T 3 m 0 K 1.0", f"in.txt:1: K of a is '1.0', and {NUMBER} 255 is needed"),
    ("a plus sign", "task a C +1 D 2 T 3 m 0 K 1", f"in.txt:1: C of a is '+1', and {NUMBER} 4,294,967,295 is needed"),
    ("a hexadecimal number", "task a C 1 D 0x2 T 3 m 0 K 1", f"in.txt:1: D of a is '0x2', and {NUMBER} 4,294,967,295 is needed"),
    ("a separator in a number", "task a C 1 D 2 T 1,000 m 0 K 1", f"in.txt:1: T of a is '1,000', and {NUMBER} 4,294,967,295 is needed"),
    ("an underline in a number", "task a C 1 D 2 T 1_000 m 0 K 1", f"in.txt:1: T of a is '1_000', and {NUMBER} 4,294,967,295 is needed"),
    ("digits of another script", "task a C \u0663 D 4 T 5 m 0 K 1", f"in.txt:1: C of a is '\u0663', and {NUMBER} 4,294,967,295 is needed"),
    ("a negative time", TASK + "tick at -1", f"in.txt:2: the time is '-1', and {NUMBER} 18,446,744,073,709,551,615 is needed"),
    ("a word for a time", TASK + "release a at noon", f"in.txt:2: the time is 'noon', and {NUMBER} 18,446,744,073,709,551,615 is needed"),
    ("a word for a job", TASK + "complete a one at 2", f"in.txt:2: the job is 'one', and {NUMBER} 18,446,744,073,709,551,615 is needed"),
    ("no position behind @", TASK + "release @ at 2", f"in.txt:2: the position behind @ is '', and {NUMBER} 255 is needed"),
    ("a word behind @", TASK + "release @a at 2", f"in.txt:2: the position behind @ is 'a', and {NUMBER} 255 is needed"),
]

TOO_LARGE = [
    ("C too large", "task a C 4294967296 D 2 T 3 m 0 K 1", "in.txt:1: C of a is '4294967296', and it is at most 4,294,967,295"),
    ("D too large", "task a C 1 D 4294967296 T 3 m 0 K 1", "in.txt:1: D of a is '4294967296', and it is at most 4,294,967,295"),
    ("T too large", "task a C 1 D 2 T 4294967296 m 0 K 1", "in.txt:1: T of a is '4294967296', and it is at most 4,294,967,295"),
    ("m too large", "task a C 1 D 2 T 3 m 256 K 1", "in.txt:1: m of a is '256', and it is at most 255"),
    ("K too large", "task a C 1 D 2 T 3 m 0 K 256", "in.txt:1: K of a is '256', and it is at most 255"),
    ("a time too large", TASK + "tick at 18446744073709551616", "in.txt:2: the time is '18446744073709551616', and it is at most 18,446,744,073,709,551,615"),
    ("a job too large", TASK + "complete a 18446744073709551616 at 2",
     "in.txt:2: the job is '18446744073709551616', and it is at most 18,446,744,073,709,551,615"),
    ("a position too large", TASK + "release @256 at 2", "in.txt:2: the position behind @ is '256', and it is at most 255"),
    ("a number of 5,000 digits", TASK + "tick at " + "9" * 5000, f"in.txt:2: the time is '{'9' * 40}..', and it is at most 18,446,744,073,709,551,615"),
]

WORDS = [
    ("a line of another kind", TASK + "relase a at 2", f"in.txt:2: no line begins with 'relase'; {BEGIN}"),
    ("a capital letter", "Task a C 1 D 2 T 3 m 0 K 1", f"in.txt:1: no line begins with 'Task'; {BEGIN}"),
    ("a comment of another language", TASK + "// a note", f"in.txt:2: no line begins with '//'; {BEGIN}"),
    ("a word of 40 letters", "x" * 40, f"in.txt:1: no line begins with '{'x' * 40}'; {BEGIN}"),
    ("a very long word", "x" * 50, f"in.txt:1: no line begins with '{'x' * 40}..'; {BEGIN}"),
    ("an escape sequence", "\x1b[31mtask", f"in.txt:1: a character that is no text, '\\x1b', {STRAY}"),
    ("a word too many in a task", "task a C 1 D 2 T 3 m 0 K 1 hard", f"in.txt:1: 'hard' is a word too many; {SHAPE} ends before it"),
    ("a word too many in a tick", TASK + "tick at 2 ms", "in.txt:2: 'ms' is a word too many; 'tick at TIME' ends before it"),
    ("a word too many in a release", TASK + "release a at 2 3", "in.txt:2: '3' is a word too many; 'release NAME at TIME' ends before it"),
    ("a word too many in a completion", TASK + "complete a 1 at 2 3", "in.txt:2: '3' is a word too many; 'complete NAME JOB at TIME' ends before it"),
    ("a task alone", "task", f"in.txt:1: the line ends after 'task', and {SHAPE} is needed"),
    ("a task without numbers", "task a", f"in.txt:1: the line ends after 'a', and {SHAPE} is needed"),
    ("a task without its last number", "task a C 1 D 2 T 3 m 0 K", f"in.txt:1: the line ends after 'K', and {SHAPE} is needed"),
    ("a task without K", "task a C 1 D 2 T 3 m 0 # K 1", f"in.txt:1: the comment begins after '0', and {SHAPE} is needed"),
    ("a tick alone", TASK + "tick", "in.txt:2: the line ends after 'tick', and 'tick at TIME' is needed"),
    ("a tick without at", TASK + "tick 5", "in.txt:2: '5' stands where 'at' is needed, as in 'tick at TIME'"),
    ("a release without a time", TASK + "release a at", "in.txt:2: the line ends after 'at', and 'release NAME at TIME' is needed"),
    ("a release with a job", TASK + "release a 1 at 2", "in.txt:2: '1' stands where 'at' is needed, as in 'release NAME at TIME'"),
    ("a completion without its job", TASK + "complete a at 2", "in.txt:2: '2' stands where 'at' is needed, as in 'complete NAME JOB at TIME'"),
    ("fields in another order", "task a D 2 C 1 T 3 m 0 K 1", f"in.txt:1: 'D' stands where 'C' is needed, as in {SHAPE}"),
    ("small letters for fields", "task a c 1 d 2 t 3 m 0 k 1", f"in.txt:1: 'c' stands where 'C' is needed, as in {SHAPE}"),
    ("two numbers for one field", "task a C 1 2 D 3 T 4 m 0 K 1", f"in.txt:1: '2' stands where 'D' is needed, as in {SHAPE}"),
]

TASKS = [
    ("an empty text", "", NO_TASK),
    ("comments alone", "# nothing\n\n   # here\n", NO_TASK),
    ("an event alone", "tick at 5", NO_TASK),
    ("17 tasks", SIXTEEN + TASK, "in.txt:17: task 'a' is the 17th, and a table has at most 16"),
    ("two tasks of one name", TASK + "\n" + TASK, "in.txt:3: task 'a' stands in line 1 already; give each task a name of its own"),
    ("two tasks of one name, spelled in two ways", TASK.replace("a", "\u00e9", 2).replace("t\u00e9sk", "task") + TASK.replace("k a", "k e\u0301"),
     "in.txt:2: task '\u00e9' stands in line 1 already; give each task a name of its own"),
    ("a task after an event", TASK + "\ntick at 1\n" + TASK.replace("k a", "k b"),
     "in.txt:4: a task after the event of line 3; all tasks stand above the events"),
    ("a task that is not there", TASK + TASK.replace("k a", "k b") + "release c at 0", "in.txt:3: there is no task 'c' above; the tasks are a, b"),
    ("a task that is written otherwise", TASK + "complete A 1 at 0", "in.txt:2: there is no task 'A' above; the tasks are a"),
    ("a release above all tasks", "release a at 0\n" + TASK, "in.txt:1: there is no task 'a' above; tasks stand above the events"),
    ("a name that begins with a digit", "task 1a C 1 D 2 T 3 m 0 K 1", f"in.txt:1: '1a' {NO_NAME}"),
    ("a name that is a position", "task @0 C 1 D 2 T 3 m 0 K 1", f"in.txt:1: '@0' {NO_NAME}"),
    ("a name with a slash", "task a/b C 1 D 2 T 3 m 0 K 1", f"in.txt:1: 'a/b' {NO_NAME}"),
    ("a name with a zero width space", "task a\u200bb C 1 D 2 T 3 m 0 K 1", f"in.txt:1: 'a\\u200bb' {NO_NAME}"),
    ("a name too long", "task abcdefghijklmnopqrstuvwxy C 1 D 2 T 3 m 0 K 1",
     "in.txt:1: the name 'abcdefghijklmnopqrstuvwxy' has 25 characters, and at most 24 are allowed"),
    ("a log too long", FULL + "tick at 0",
     "in.txt:3277: the log is too long: 3,275 events and the table fill the 65,536 bytes that are listed; cut the log before this line"),
]

LETTERS = [
    ("UTF-16, lowest byte first", TASK.encode("utf-16"), "in.txt: this is UTF-16 or UTF-32 text; save it as UTF-8"),
    ("UTF-16, highest byte first", b"\xfe\xff" + TASK.encode("utf-16-be"), "in.txt: this is UTF-16 or UTF-32 text; save it as UTF-8"),
    ("UTF-32", TASK.encode("utf-32"), "in.txt: this is UTF-16 or UTF-32 text; save it as UTF-8"),
    ("a zero byte", TASK + "tick\0 at 0", f"in.txt:2: a character that is no text, '\\x00', {STRAY}"),
    ("a carriage return within a line", TASK + "# old\rtick at 0", f"in.txt:2: a character that is no text, '\\r', {STRAY}"),
    ("another script's line end", TASK + "# a\u2028tick at 0", f"in.txt:2: a character that is no text, '\\u2028', {STRAY}"),
    ("a space of another width", "task\u00a0a C 1 D 2 T 3 m 0 K 1", f"in.txt:1: no line begins with 'task\\xa0a'; {BEGIN}"),
    ("an accent of Latin-1 in a comment", TASK.encode() + b"# caf\xe9\n", "in.txt:2: byte 0xe9 is no UTF-8 text; save the file as UTF-8"),
    ("junk without a zero byte", b"\x89PNG\r\n\x1a\n\xc3\x28", "in.txt:1: byte 0x89 is no UTF-8 text; save the file as UTF-8"),
]


def table(name, fields, number, told):
    """A second task that the program refuses, in line 3."""
    return name, f"{TASK}\ntask b {fields}", f"in.txt:3: table refused {number} at 1: task b: {told}"


RULES = [
    table("C is 0", "C 0 D 2 T 3 m 0 K 1", 3, "C is 0, and it has to be at least 1"),
    table("D is smaller than C", "C 9 D 7 T 8 m 1 K 3", 3, "D is 7 and C is 9, and D has to be at least C"),
    table("T is smaller than D", "C 1 D 9 T 8 m 1 K 3", 3, "T is 8 and D is 9, and T has to be at least D"),
    table("T is smaller than D, which is C", "C 9 D 9 T 8 m 1 K 3", 3, "T is 8 and D is 9, and T has to be at least D"),
    table("T is past its limit", "C 1 D 2 T 1000001 m 1 K 3", 3, "T is 1000001, and it has to be at most 1000000"),
    table("all times are 0", "C 0 D 0 T 0 m 0 K 1", 3, "C is 0, and it has to be at least 1"),
    table("D is smaller than C and T than D", "C 9 D 8 T 7 m 0 K 1", 3, "D is 8 and C is 9, and D has to be at least C"),
    table("T breaks its rule, and K too", "C 1 D 9 T 8 m 0 K 0", 3, "T is 8 and D is 9, and T has to be at least D"),
    table("K is 0", "C 1 D 2 T 3 m 0 K 0", 4, "K is 0, and it has to be from 1 to 64"),
    table("K is past its limit", "C 1 D 2 T 3 m 1 K 65", 4, "K is 65, and it has to be from 1 to 64"),
    table("m is K", "C 1 D 2 T 3 m 3 K 3", 4, "m is 3 and K is 3, and m has to be smaller than K"),
    table("m is larger than K", "C 1 D 2 T 3 m 255 K 64", 4, "m is 255 and K is 64, and m has to be smaller than K"),
    table("a hard task with K 2", "C 1 D 2 T 3 m 0 K 2", 4, "m is 0 and K is 2, and a hard task, with m 0, has to have K 1"),
]

CASES = NUMBERS + TOO_LARGE + WORDS + TASKS + LETTERS + RULES
