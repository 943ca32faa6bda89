#!/bin/sh
# The bench rig from C: builds target/tests/rig, a C program over the static library, and runs its cases; on x86-64 under valgrind as well.
set -eu
cd "$(dirname "$(readlink -f "$0")")/../.."
. tests/machine.sh
compiler
mkdir -p target/tests
# the C example, which builds the library, and the shell examples
tests/c/choice.sh
tests/examples.sh
client -static -o target/tests/rig
$run target/tests/rig tests/cases/rig
if [ -z "$run" ]; then
    needs valgrind valgrind
    # with the C library as a file of its own, since valgrind knows its functions by it; the children that run into a guard on purpose are not reported
    client -g -o target/tests/rig_watched
    valgrind -q --child-silent-after-fork=yes --error-exitcode=9 target/tests/rig_watched tests/cases/rig
fi
