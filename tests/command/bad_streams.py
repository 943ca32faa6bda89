"""Streams that are closed, gone or full, and files that may not be read or written."""
import os
import subprocess
from unittest import mock

from bad_uses import GOOD
from there import COMMAND, PYTHON, Ended, call, folder_with, hold, inside, run

FULL = "standard output: no space is left on its disk"
CLOSED = "standard output: it is closed; open it"


def by_shell(args, folder, streams):
    """Runs the command with streams as a shell opens and closes them."""
    done = subprocess.run(["sh", "-c", f'exec "$@" {streams}', "sh", *PYTHON, str(COMMAND), *args], cwd=folder, stdout=subprocess.PIPE, stderr=subprocess.PIPE)
    return Ended(done.returncode, done.stdout, done.stderr.decode())


def streams(folder, ends):
    ends("the listing into a full disk", by_shell(["list", "good.txt"], folder, ">/dev/full"), FULL)
    ends("JSON into a full disk", by_shell(["timeline", "--json", "good.txt"], folder, ">/dev/full"), FULL)
    ends("a closed standard output", by_shell(["check", "good.txt"], folder, ">&-"), CLOSED)
    ends("a plain listing into a closed output", by_shell(["list", "--plain", "good.txt"], folder, ">&-"), CLOSED)
    ends("a closed standard input", by_shell(["list", "-"], folder, "<&-"), "standard input: it is closed; open it")
    # a reader that has gone, such as head, wants no more: that is no error
    there, away = os.pipe()
    os.close(there)
    hold("a reader that has gone", run(["list", "good.txt"], folder, stdout=away), Ended(0, b"", ""))
    os.close(away)
    return 6


def forbidden(folder, ends):
    """What permissions forbid; root may do it all, so it is made up there."""
    no = PermissionError(13, "Permission denied")
    with mock.patch("command.files.open", side_effect=no, create=True):
        ends("a file that may not be read", call(["list", "good.txt"], folder), "good.txt: its permissions forbid it")
    with mock.patch("command.files.os.access", return_value=False):
        ends("a file that may not be written", call(["bytes", "good.txt", "-o", "out.bin"], folder),
             "out.bin: its permissions forbid to write it; give another name after -o")
    with mock.patch("command.files.os.replace", side_effect=no):
        ends("a file that cannot be put into its place", call(["bytes", "good.txt", "-o", "out.bin"], folder), "out.bin: its permissions forbid it")
    if os.geteuid() == 0:
        return 3
    os.chmod(f"{folder}/good.txt", 0)
    ends("a file that really may not be read", run(["list", "good.txt"], folder), "good.txt: its permissions forbid it")
    os.chmod(f"{folder}/good.txt", 0o600)
    os.chmod(folder, 0o500)
    ends("a folder that may not be written", run(["timeline", "good.txt", "-o", "out.svg"], folder),
         "out.svg: its permissions forbid to write it; give another name after -o")
    os.chmod(folder, 0o700)
    return 5


def look(ends):
    with folder_with({"good.txt": GOOD}) as folder:
        before = inside(folder)
        count = streams(folder, ends) + forbidden(folder, ends)
        hold("streams: files", inside(folder), before)
    return count
