#!/bin/sh
# The listing program where its input or its output is lost: a line on standard error says so, and nothing is said there otherwise.
# The exit status is 0 whatever was lost.
set -eu
cd "$(dirname "$(readlink -f "$0")")/.."
. tests/machine.sh
compiler
work=$(mktemp -d)
trap 'rm -rf "$work"' EXIT
program listing >"$work/built" 2>&1 || {
    cat "$work/built"
    exit 1
}
input=crates/listing/stdin
no_input='listing: standard input could not be read to its end, so nothing is listed; give it a file or a pipe'
no_output='listing: standard output did not take the whole listing, so what it has is cut; open it or give it room'

# the program, by its status in $status and what it says in a file
listing() {
    status=0
    $start crates/listing/out/listing 2>"$work/said" || status=$?
}

# has CASE STATUS LINE: the run before left that status and that line, and no other
has() {
    [ "$status" -eq "$2" ] && [ "$(cat "$work/said")" = "$3" ] && return
    echo "$1: status $status, and it said: $(cat "$work/said")"
    exit 1
}

# nothing lost: the whole text, also where the input comes in two pieces, and not a word more
listing <"$input" >"$work/out"
has 'whole' 0 ''
cmp "$work/out" crates/listing/stdout
{ head -c 30 "$input" && sleep 1 && tail -c +31 "$input"; } | { listing >"$work/out" && has 'two pieces' 0 ''; }
cmp "$work/out" crates/listing/stdout

# an input that cannot be read is not taken for an empty one
listing <tests >"$work/out"
has 'a folder as input' 0 "$no_input"
[ ! -s "$work/out" ]

listing <"$input" >/dev/full
has 'a full output' 0 "$no_output"

# an emulator opens files of its own, one of which would take the place of what is closed
if [ -z "$start" ]; then
    listing <&- >"$work/out"
    has 'a closed input' 0 "$no_input"
    [ ! -s "$work/out" ]
    listing <"$input" >&-
    has 'a closed output' 0 "$no_output"
fi

# a pipe whose reader has gone: the toolchain's programs ignore SIGPIPE, whether it was ignored before or not, so the line is said
# (a pipe opens for writing only where it is open for reading, so that end is opened first, and closed)
mkfifo "$work/pipe"
# shellcheck disable=SC2094
(exec 3<>"$work/pipe" 4>"$work/pipe" 3<&- && listing <"$input" >&4 && has 'no reader' 0 "$no_output")
# shellcheck disable=SC2094
(trap '' PIPE && exec 3<>"$work/pipe" 4>"$work/pipe" 3<&- && listing <"$input" >&4 && has 'no reader, and no signal' 0 "$no_output")

# a disk that says only when the file is synced that it is full: the program's own object file, over an fdatasync that fails
printf 'int __wrap_fdatasync(int file);\nint __wrap_fdatasync(int file)\n{\n    return file < 0 ? 0 : -1;\n}\n' >"$work/late.c"
# shellcheck disable=SC2086
"$cc" -std=c99 -Wall -Wextra -Werror -O2 -static -Wl,--wrap=fdatasync -o "$work/late" "$work/late.c" crates/listing/out/listing.o $parts
$run "$work/late" <"$input" >"$work/out" 2>"$work/said"
status=0
has 'full when synced' 0 "$no_output"

# pipes that do not block: an empty one as input, and one as output that is full after 4,096 bytes of a longer text
# shellcheck disable=SC2086
python3 - "$no_input" "$no_output" $start crates/listing/out/listing <<'END'
import fcntl, os, subprocess, sys
no_input, no_output, program = sys.argv[1], sys.argv[2], sys.argv[3:]

def said(case, line, **streams):
    run = subprocess.run(program, stderr=subprocess.PIPE, **streams)
    if run.returncode != 0 or run.stderr.decode() != line:
        sys.exit(f'{case}: status {run.returncode}, and it said: {run.stderr.decode()}')
    return run.stdout

table = b'\x01TK' + b''.join(n.to_bytes(4, 'little') for n in (1, 2, 2)) + b'\x00\x01'
events = b''.join(b'EV\x00\x00' + bytes(8) + n.to_bytes(8, 'little') for n in range(1000))
whole = said('a long listing', '', input=table + events, stdout=subprocess.PIPE)

read, write = os.pipe2(os.O_NONBLOCK)
said('an empty pipe that does not block', no_input + '\n', stdin=read, stdout=subprocess.DEVNULL)

source, feed = os.pipe()
os.write(feed, table + events)
os.close(feed)
fcntl.fcntl(write, 1031, 4096)  # F_SETPIPE_SZ, which older Pythons have no name for
said('a full pipe that does not block', no_output + '\n', stdin=source, stdout=write)
front = os.read(read, len(whole))
if len(front) != 4096 or not whole.startswith(front):
    sys.exit(f'a full pipe that does not block: {len(front)} bytes of the text')
END
echo "every loss is told"
