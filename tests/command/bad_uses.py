"""Wrong uses: a name, the command's words, and the line that is told.

good.txt is a right table and log, good.bin its bytes, folder a folder, loop a link to itself, and link.svg one to good.txt."""
from bad_texts import TASK

GOOD = TASK + "release a at 0\ncomplete a 1 at 1\ntick at 9\n"
OWN = None  # the words are those of Python's argparse, which differ from version to version: they are one line of the command's form
WHOLE = "brumerola timeline: --json prints all of the log and draws nothing, so leave -o, --from and --to out"
ASK = "brumerola timeline: give the picture's name with -o, such as -o line.svg, or --json"

OPTIONS = [
    ("no words", [], OWN),
    ("no such command", ["draw", "good.txt"], OWN),
    ("no file", ["list"], OWN),
    ("two files", ["check", "good.txt", "good.txt"], OWN),
    ("an option that is not there", ["list", "good.txt", "--nice"], OWN),
    ("an option cut short", ["list", "good.txt", "--pl"], OWN),
    ("an option without its word", ["bytes", "good.txt", "-o"], OWN),
    ("two forms of a listing", ["list", "good.txt", "--plain", "--json"], OWN),
    ("bytes without an output", ["bytes", "good.txt"], OWN),
    ("names for bytes", ["bytes", "good.txt", "--names", "good.txt", "-o", "out.bin"], OWN),
    ("--from a word", ["timeline", "good.txt", "--from", "noon", "-o", "out.svg"], OWN),
    ("--from below 0", ["timeline", "good.txt", "--from=-1", "-o", "out.svg"], OWN),
    ("--to with a point", ["timeline", "good.txt", "--to", "1.5", "-o", "out.svg"], OWN),
    ("--to of 21 digits", ["timeline", "good.txt", "--to", "123456789012345678901", "-o", "out.svg"], OWN),
    ("a line break in a word", ["list", "good.txt", "--ni\nce"], OWN),
    ("a picture without an output", ["timeline", "good.txt"], ASK),
    ("a picture with an output and --json", ["timeline", "good.txt", "--json", "-o", "out.svg"], WHOLE),
    ("--from with --json", ["timeline", "good.txt", "--json", "--from", "1"], WHOLE),
    ("--to with --json", ["timeline", "good.txt", "--json", "--to", "1"], WHOLE),
    ("--from after --to", ["timeline", "good.txt", "--from", "5", "--to", "3", "-o", "out.svg"],
     "brumerola timeline: --to 3 has to be after the first tick that is drawn, 5"),
    ("--from at --to", ["timeline", "good.txt", "--from", "3", "--to", "3", "-o", "out.svg"],
     "brumerola timeline: --to 3 has to be after the first tick that is drawn, 3"),
    ("--from at the end", ["timeline", "good.txt", "--from", "9", "-o", "out.svg"],
     "brumerola timeline: nothing is drawn from 9 on, since the log ends at 9; give --from a smaller time"),
    ("--to at the start", ["timeline", "good.txt", "--to", "0", "-o", "out.svg"], "brumerola timeline: --to 0 has to be after the first tick that is drawn, 0"),
]

INPUTS = [
    ("a file that is not there", ["list", "none.txt"], "none.txt: there is no such file or folder"),
    ("a folder for a file", ["check", "folder"], "folder: this is a folder, and a file is needed"),
    ("a file for a folder", ["list", "good.txt/x"], "good.txt/x: a part of this path is a file and no folder"),
    ("an empty name", ["list", ""], "brumerola: the file's name is empty; give the name of a file"),
    ("a name too long for the system", ["list", "n" * 300], "n" * 300 + ": the name is too long"),
    ("links in a circle", ["list", "loop"], "loop: its links lead round in a circle"),
    ("a file without an end", ["list", "/dev/zero"], "/dev/zero: this file has more than 16 MiB, and no table and log that can be listed is so long"),
    ("a line break in a name", ["list", "a\nb"], "a\\nb: there is no such file or folder"),
    ("an empty name for --names", ["list", "good.bin", "--names", ""], "brumerola: the file's name is empty; give the name of a file"),
    ("standard input that is wrong", ["list", "-"],
     "standard input: there is no task in it; a line such as 'task NAME C N D N T N m N K N' is one, with a number for each N"),
]

OUTPUTS = [
    ("an output in no folder", ["bytes", "good.txt", "-o", "none/out.bin"], "none/out.bin: there is no folder none; make it first"),
    ("an output in a file", ["bytes", "good.txt", "-o", "good.bin/out.bin"], "good.bin/out.bin: there is no folder good.bin; make it first"),
    ("a folder for an output", ["timeline", "good.txt", "-o", "folder"], "folder: this is a folder; give the name of a file after -o"),
    ("an empty name for the bytes", ["bytes", "good.txt", "-o", ""], "brumerola: the output's name is empty; give a name after -o"),
    ("an empty name for the text", ["text", "good.bin", "-o", ""], "brumerola: the output's name is empty; give a name after -o"),
    ("an empty name for the picture", ["timeline", "good.txt", "-o", ""], "brumerola: the output's name is empty; give a name after -o"),
    ("the bytes over the text", ["bytes", "good.txt", "-o", "good.txt"], "good.txt: this file is read; give another name after -o"),
    ("the text over the bytes", ["text", "good.bin", "-o", "./good.bin"], "./good.bin: this file is read; give another name after -o"),
    ("the picture over the text, by a link", ["timeline", "good.txt", "-o", "link.svg"], "link.svg: this file is read; give another name after -o"),
    ("the picture over the names", ["timeline", "good.bin", "--names", "good.txt", "-o", "link.svg"],
     "link.svg: this file is read; give another name after -o"),
    ("the text over the names", ["text", "good.bin", "--names", "good.txt", "-o", "good.txt"], "good.txt: this file is read; give another name after -o"),
    ("a picture of another kind", ["timeline", "good.txt", "-o", "out.png"],
     "out.png: the picture is SVG, which a browser shows; give a name that ends in .svg"),
    ("a full disk for the bytes", ["bytes", "good.txt", "-o", "/dev/full"], "/dev/full: no space is left on its disk"),
    ("a full disk for the picture", ["timeline", "good.txt", "-o", "/dev/full"], "/dev/full: no space is left on its disk"),
]

CASES = OPTIONS + INPUTS + OUTPUTS
