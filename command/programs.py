"""The proved listing program: built where it is not there or its sources have changed, and run."""
import hashlib
import os
import pathlib
import platform
import shutil
import subprocess
import sys

from .wrong import Wrong

ROOT = pathlib.Path(__file__).resolve().parent.parent
PROGRAM = "listing"
CRATE = ROOT / "crates" / PROGRAM
BINARY = CRATE / "out" / PROGRAM
STAMP = ROOT / "target/command" / PROGRAM
INSTALL = "install the Rattle toolchain, and put its bin folder into PATH"
WORD = "brumerola: proving and building the listing program; this takes up to 10 minutes the first time, and is done again only if the sources change\n"


def sources():
    """What the program is built from, as one number: a change of any of it is seen, and a copy is the same."""
    found = hashlib.sha256()
    for path in [ROOT / "crates.txt", *sorted(ROOT.glob("crates/*/s*/**/*.*")), *sorted(ROOT.glob("crates/*/proofs/**/*.*"))]:
        found.update(f"{path.relative_to(ROOT)}\0".encode() + path.read_bytes())
    return found.hexdigest()


def toolchain():
    rt = shutil.which("rt")
    if rt is None:
        raise Wrong(f"brumerola: rt is not here, and the listing program has to be built: {INSTALL}")
    return rt


def built():
    """Builds the program unless it is there as the sources have it."""
    now = sources()
    if BINARY.exists() and STAMP.exists() and STAMP.read_text() == now:
        return
    rt = toolchain()
    sys.stderr.write(WORD)
    sys.stderr.flush()
    prove(rt)
    STAMP.parent.mkdir(parents=True, exist_ok=True)
    STAMP.write_text(now)


def prove(rt):
    """Runs the proofs and the build, and the program once on nothing. At a terminal the crates are counted; what rt says is shown only if it fails."""
    said, proved = [], 0
    quiet = {"stdin": subprocess.DEVNULL, "stdout": subprocess.DEVNULL, "stderr": subprocess.PIPE}
    with subprocess.Popen([rt, "run"], cwd=CRATE, text=True, **quiet) as run:
        for line in run.stderr:
            said.append(line)
            proved += line.startswith("logic=proved")
            if sys.stderr.isatty():
                sys.stderr.write(f"\r{proved} crates proved")
    if sys.stderr.isatty():
        sys.stderr.write("\n")
    if run.returncode != 0 or not BINARY.exists():
        sys.stderr.writelines(said)
        raise Wrong("brumerola: the listing program could not be proved and built; the lines above say why")


def start():
    """What starts the program: nothing more on x86-64, and elsewhere an emulator and the toolchain's loader."""
    if platform.machine() in ("x86_64", "amd64"):
        return []
    tools = pathlib.Path(os.path.realpath(toolchain())).parent.parent / "toolchain"
    emulator = shutil.which("qemu-x86_64")
    if emulator is None:
        raise Wrong("brumerola: qemu-x86_64 is not here, and the listing program is for x86-64: install qemu-user")
    return [emulator, str(tools / "lib/ld-linux-x86-64.so.2"), "--library-path", str(tools / "lib")]


def listing(raw):
    """What the program prints for this input. It says on standard error what it lost, and nothing there otherwise."""
    try:
        built()
        run = subprocess.run([*start(), str(BINARY)], input=raw, stdout=subprocess.PIPE, stderr=subprocess.PIPE)
    except OSError as wrong:
        raise Wrong(f"brumerola: the listing program could not be built or started: {wrong.strerror}: {wrong.filename}") from None
    if run.returncode != 0 or run.stderr:
        said = run.stderr.decode("ascii", "replace").strip().split("\n")[0]
        raise Wrong(f"brumerola: the listing program ended with {run.returncode}: {said or 'it said nothing'}")
    return run.stdout.decode("ascii")
