"""The commands and their words. What is asked for is looked at before anything is built."""
import argparse
import traceback

from . import check, data, files, form, lines, programs, records, timeline
from .given import given, is_bytes, names_from, of_bytes, of_text
from .history import History
from .why import Reasons
from .wrong import Wrong, printable

FILE = "a table and a log, as text (docs/TEXT.md) or as bytes; - is standard input"
NAMES = "the text that FILE's bytes were made from: its tasks' names are shown"
FAULT = "this is a fault of the command, and nothing is written"


class Parser(argparse.ArgumentParser):
    """Tells a wrong use in one line, and loses no help in silence."""

    def error(self, message):
        raise Wrong(f"{self.prog}: {message}; '{self.prog} --help' tells more")

    def print_help(self, file=None):
        files.say(self.format_help().encode())


def list_file(asked):
    if asked.plain:
        return list_plain(asked)
    found = given(asked.file, asked.names)
    history = History(found)
    text = data.told(data.listing(found)) if asked.json else "".join(line + "\n" for line in lines.listing(history))
    files.say(text.encode())
    warn_of_stop(found)
    return 0


def list_plain(asked):
    if asked.names is not None:
        raise Wrong("brumerola list: --plain shows no names, so leave --names out")
    raw = files.read(asked.file)
    files.say(programs.listing(raw if is_bytes(raw) else records.input_bytes(*form.Reader(files.name_of(asked.file)).read(raw))).encode())
    return 0


def warn_of_stop(found):
    """A log that does not read to its end is shown as far as it reads, and standard error says so."""
    stop = found.listing.stop
    if stop:
        files.warn(f"{found.file}: stop {stop.refusal} at {stop.offset}: {lines.stopped(found)}; nothing from there on was read")


def to_bytes(asked):
    files.ready(asked.output, asked.file)
    raw = files.read(asked.file)
    if is_bytes(raw):
        raise Wrong(f"{files.name_of(asked.file)}: this is a file of bytes already; 'brumerola text' makes text of it")
    found = of_text(asked.file, raw)
    read_back(records.tasks_of(found.raw), found.tasks, 1)
    read_back(records.events_of(found.raw, len(found.events)), found.events, 0)
    files.write(asked.output, found.raw)
    return 0


def read_back(again, values, first):
    """What was written reads as the same values, but for names and lines, which bytes do not have."""
    if [value[first:-1] for value in again] != [value[first:-1] for value in values]:
        raise Wrong(f"brumerola: the bytes do not read back as the text; {FAULT}")


def to_text(asked):
    files.ready(asked.output, asked.file, asked.names)
    raw = files.read(asked.file)
    if not is_bytes(raw):
        raise Wrong(f"{files.name_of(asked.file)}: this is no file of bytes; 'brumerola list' and 'brumerola bytes' read text")
    found = of_bytes(asked.file, raw, names_from(asked.names))
    stop = found.listing.stop
    if stop:
        raise Wrong(f"{found.file}: stop {stop.refusal} at {stop.offset}: {lines.stopped(found)}; no text stands for this, so cut the file there")
    text = "".join(form.text_of(found.tasks, found.events))
    if records.input_bytes(*form.Reader("the text").read(text.encode())) != found.raw:
        raise Wrong(f"brumerola: the text does not read back as the bytes; {FAULT}")
    files.write(asked.output, text.encode())
    return 0


def draw(asked):
    if asked.output is None and not asked.json:
        raise Wrong("brumerola timeline: give the picture's name with -o, such as -o line.svg, or --json")
    if asked.json and (asked.output, asked.start, asked.end) != (None, None, None):
        raise Wrong("brumerola timeline: --json prints all of the log and draws nothing, so leave -o, --from and --to out")
    if asked.output is not None:
        files.ready(asked.output, asked.file, asked.names)
        if not asked.output.endswith(".svg") and asked.output != "-" and not asked.output.startswith("/dev/"):
            raise Wrong(f"{printable(asked.output)}: the picture is SVG, which a browser shows; give a name that ends in .svg")
    history = History(given(asked.file, asked.names))
    if asked.json:
        files.say(data.told(data.timeline(history, Reasons(history))).encode())
    else:
        files.write(asked.output, timeline.draw(history, asked.start, asked.end).encode())
    warn_of_stop(history.given)
    return 0


def check_table(asked):
    found = given(asked.file, asked.names, log=False)
    check.hold(found)
    files.say((data.told(data.checked(found)) if asked.json else "".join(line + "\n" for line in check.told(found))).encode())
    return 1 if check.failing(found) else 0


def tick(word):
    """A time on the command line."""
    if not (word.isascii() and word.isdigit() and len(word) <= 20):
        raise argparse.ArgumentTypeError(f"'{printable(word[:40])}' is no time: a whole number of ticks is needed")
    return int(word)


def parser():
    top = Parser(
        prog="brumerola",
        description="Lists, checks and draws what the proved dispatcher does with a task table and a log.",
        epilog="Status: 0 done; 1 no guarantee for this table (check); 2 one line on standard error says what is wrong. docs/COMMAND.md tells all.",
        allow_abbrev=False,
    )
    parts = top.add_subparsers(dest="command", metavar="COMMAND", required=True)

    def command(name, does, run, file=FILE, names=True):
        part = parts.add_parser(name, help=does, description=does[0].upper() + does[1:] + ".", allow_abbrev=False)
        part.add_argument("file", metavar="FILE", help=file)
        if names:
            part.add_argument("--names", metavar="TEXT", help=NAMES)
        part.set_defaults(run=run)
        return part

    options(command)
    return top


def options(command):
    """Each command with its options."""
    part = command("list", "the listing, with the tasks' names beside their positions", list_file)
    form_of = part.add_mutually_exclusive_group()
    form_of.add_argument("--plain", action="store_true", help="the proved program's text as it is")
    form_of.add_argument("--json", action="store_true", help="the same for a screen to read")
    table = "a table as text or bytes; a log behind it is left out; - is standard input"
    part = command("check", "whether the guarantee holds for a table: bounds, slack and utilisation of each task, and why one has no bound", check_table, table)
    part.add_argument("--json", action="store_true", help="the same for a screen to read")
    part = command("timeline", "a picture of the log: who ran when, which jobs were missed, and why", draw)
    part.add_argument("-o", dest="output", metavar="OUT.svg", help="where the picture goes; a browser shows it; - is standard output")
    part.add_argument("--from", dest="start", metavar="TIME", type=tick, help="draw from this tick on")
    part.add_argument("--to", dest="end", metavar="TIME", type=tick, help="draw up to this tick")
    part.add_argument("--json", action="store_true", help="what the picture shows, for a screen to read; nothing is drawn")
    part = command("bytes", "the bytes of a text, as the listing and the line read them", to_bytes, "a text (docs/TEXT.md); - is standard input", False)
    part.add_argument("-o", dest="output", metavar="OUT.bin", required=True, help="where the bytes go; - is standard output")
    part = command("text", "the text of a file of bytes", to_text, "a table and a log as bytes; - is standard input")
    part.add_argument("-o", dest="output", metavar="OUT.txt", default="-", help="where the text goes; standard output without it")


def main():
    try:
        asked = parser().parse_args()
        return asked.run(asked)
    except Wrong as wrong:
        files.warn(str(wrong))
    except SystemExit as end:  # behind --help
        return end.code or 0
    except Exception as fault:
        at = traceback.extract_tb(fault.__traceback__)[-1]
        where = f"{at.filename.rpartition('/')[2]}:{at.lineno}"
        files.warn(f"brumerola: a fault of the command, at {where}: {type(fault).__name__}: {fault}; nothing is written; report it with the file")
    return 2
