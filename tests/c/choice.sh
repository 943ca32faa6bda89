#!/bin/sh
# The C example: its line, its stream and its exit status for each thing that it can be given. It and the header compile as C99, as C11 and as C++.
set -eu
cd "$(dirname "$(readlink -f "$0")")/../.."
. tests/machine.sh
compiler
needs g++ g++
work=$(mktemp -d)
trap 'rm -rf "$work"' EXIT
# holds FILE LINE: the file is this line alone, or empty where the line is
holds() {
    if [ -n "$2" ]; then printf '%s\n' "$2"; fi >"$work/right"
    cmp -s "$work/right" "$1"
}

# has STATUS OUT ERROR: the run before ended so, and wrote these lines and no others
has() {
    ran=$((ran + 1))
    if [ "$status" -eq "$1" ] && holds "$work/out" "$2" && holds "$work/err" "$3"; then return; fi
    printf '%s\n' "choice.sh: case $ran should end with $1, print '$2' and say '$3'; it ended with $status, and:"
    cat "$work/out" "$work/err"
    exit 1
}
ran=0

choice() {
    : >"$work/out"
    status=0
    $run target/tests/choice "$@" >"${out:-$work/out}" 2>"$work/err" || status=$?
}

# answers LINE: for the bytes in the file `given`
answers() {
    choice "$work/given"
    has 0 "$1" ''
}

# stops LINE WORDS..: for these words
stops() {
    line=$1
    shift
    choice "$@"
    has 2 '' "choice: $line"
}

# given BYTES..: makes the file of words in which a byte may be written \0 and its octal digits
given() { for part; do printf %b "$part"; done >"$work/given"; }

# the README's example, which builds the library and the program: the line's log ends with no job open, and without its last event with the tension's
examples/choice.sh >"$work/out" 2>"$work/err" || { cat "$work/err" && exit 1; }
status=0
: >"$work/err"
has 0 'no job is open' ''
head -c -20 examples/line.bin >"$work/given"
answers 'task 2 runs'

# one task, C 1, D 2, T 2, (0,1), and its events; job and time are 8 bytes each
task='TK\001\000\000\000\002\000\000\000\002\000\000\000\000\001'
zero='\000\000\000\000\000\000\000\000'
one='\001\000\000\000\000\000\000\000'
given '\001' "$task"
answers 'no job is open'
given '\001' "$task" 'EV\001\000' "$zero$zero"
answers 'task 0 runs'

# each refusal by its number and in words
given '\000'
answers 'refused 1: the table is not 1 to 16 records of 16 bytes'
given '\001tk\001\000\000\000\002\000\000\000\002\000\000\000\000\001'
answers 'refused 2: a table record does not begin with 54 4B'
given '\001TK\000\000\000\000\002\000\000\000\002\000\000\000\000\001'
answers 'refused 3: a task breaks 1 <= C <= D <= T <= 1,000,000'
given '\001TK\001\000\000\000\002\000\000\000\002\000\000\000\000\002'
answers 'refused 4: a task breaks m < K <= 64, or has m = 0 and K over 1'
given '\001' "$task" 'EV'
answers 'refused 5: the log ends within a record of 20 bytes'
given '\001' "$task" 'ev\000\000' "$zero$zero"
answers 'refused 6: an event record does not begin with 45 56'
given '\001' "$task" 'EV\003\000' "$zero$zero"
answers "refused 7: an event's kind is not 0, 1 or 2"
given '\001' "$task" 'EV\000\001' "$zero$zero"
answers 'refused 8: a tick has a task or a job, or a release has a job'
given '\001' "$task" 'EV\000\000' "$zero$one" 'EV\000\000' "$zero$zero"
answers 'refused 9: the last event is before the clock, or past 1,000,000,000,000'
given '\001' "$task" 'EV\001\001' "$zero$zero"
answers 'refused 10: the last event is of a task that the table does not have'
given '\001' "$task" 'EV\001\000' "$zero$zero" 'EV\001\000' "$zero$one"
answers 'refused 11: the last event releases its task less than T after its last release'
given '\001' "$task" 'EV\002\000' "$one$zero"
answers 'refused 12: the last event completes a job that is not open'

# long TASKS BYTES: so many tasks, and so many bytes of ticks; 4,096 ticks are 81,920 bytes
printf 'EV\000\000%b%b' "$zero" "$zero" >"$work/ticks"
for _ in 1 2 3 4 5 6 7 8 9 10 11 12; do
    cat "$work/ticks" "$work/ticks" >"$work/twice"
    mv "$work/twice" "$work/ticks"
done
long() {
    {
        printf %b "\\0$(printf %o "$1")"
        for _ in $(seq "$1"); do printf %b "$task"; done
        head -c "$2" "$work/ticks"
    } >"$work/given"
}

# a log of 65,536 bytes is looked at, and a longer one is told as such, whatever the table has; 65,536 is no multiple of 20
too_long='the log is too long: 65536 bytes are the most'
cut='refused 5: the log ends within a record of 20 bytes'
no_table='refused 1: the table is not 1 to 16 records of 16 bytes'
for tasks in 0 1 15 16 17 255; do
    looked=$cut
    case $tasks in 0 | 17 | 255) looked=$no_table ;; esac
    long "$tasks" 65536
    answers "$looked"
    long "$tasks" 65537
    answers "$too_long"
    long "$tasks" 80020
    answers "$too_long"
done
long 16 65520
answers 'no job is open'

# what is wrong before the library is asked
stops 'no file: one is needed; run choice FILE, or choice --help'
stops 'more than one file: one is needed; run choice FILE, or choice --help' examples/line.bin examples/line.bin
stops "$work/none: No such file or directory; give a file that can be read" "$work/none"
stops 'an empty name: No such file or directory; give a file that can be read' ''
stops "$work: Is a directory; give a file that can be read" "$work"
stops 'examples/line.bin/x: Not a directory; give a file that can be read' examples/line.bin/x
stops '/proc/self/mem: Input/output error; give a file that can be read' /proc/self/mem
given
stops "$work/given: the file is empty; make it again with ./brumerola bytes" "$work/given"
head -c 160 examples/line.bin >"$work/given"
stops "$work/given: the table is not whole: of n = 10 records of 16 bytes, 159 bytes are there; make it again with ./brumerola bytes" "$work/given"
given '\0377'
stops "$work/given: the table is not whole: of n = 255 records of 16 bytes, 0 bytes are there; make it again with ./brumerola bytes" "$work/given"
# root may read every file
if [ "$(id -u)" -ne 0 ]; then
    chmod 0 "$work/given"
    stops "$work/given: Permission denied; give a file that can be read" "$work/given"
    rm -f "$work/given"
fi

# an output that does not take the answer
lost='the answer is lost, so give it room and ask again'
out=/dev/full
stops "standard output: No space left on device; $lost" examples/line.bin
stops "standard output: No space left on device; $lost" --help
out=''
# an emulator opens files of its own, one of which would take the place of what is closed
if [ -z "$run" ]; then
    : >"$work/out"
    status=0
    target/tests/choice examples/line.bin >&- 2>"$work/err" || status=$?
    has 2 '' "choice: standard output: Bad file descriptor; $lost"
fi

choice --help
has 0 'usage: choice FILE
Says which task runs after the log in FILE: one byte n, n table records of 16 bytes, then events of 20 bytes.
It ends with 0 where the library answered, a refusal too, and with 2 where standard error says what is wrong.' ''

# the header alone, twice over; C++ finds the function by its name in C only where the header says so
warned='-Wall -Wextra -Wpedantic -Werror -I include'
printf '#include "brumerola.h"\n#include "brumerola.h"\n' >"$work/header.c"
printf '%s\nextern "C" uint32_t brumerola_choice(const uint8_t *, size_t, const uint8_t *, size_t);\n' "$(cat "$work/header.c")" >"$work/header.cc"
for file in "$work/header.c" examples/choice.c; do
    # shellcheck disable=SC2086
    for standard in c99 c11; do "$cc" -std=$standard $warned -O2 -x c -c -o "$work/compiled.o" "$file"; done
done
for file in "$work/header.c" "$work/header.cc" examples/choice.c; do
    # shellcheck disable=SC2086
    g++ -std=c++11 $warned -x c++ -fsyntax-only "$file"
done
echo "$ran cases of the C example, and it compiles as C99, C11 and C++"
