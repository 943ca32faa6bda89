#!/bin/sh
# choice.sh [FILE]: proves and builds the library for C and the program choice.c over it, and asks which task runs after the log of FILE, or of the example.
set -eu
about='Proves and builds the library for C and the program examples/choice.c over it, which says what runs after the log of FILE, or of the example.
FILE holds bytes: one byte n, n table records, then events (docs/RULES.md, "The listing"); ./brumerola bytes makes them from text.
It needs rt of the Rattle toolchain and a C compiler for x86-64. The first time takes up to 10 minutes, later ones seconds.
It ends with 2 where something is missing or wrong and with 1 where the build failed, which standard error tells; with 0 behind every answer.'
here='' input=''
# shellcheck source=examples/input.sh
. "$(dirname "$(readlink -f "$0")")/input.sh"
cd "$here"
. tests/machine.sh
compiler || exit 2
{ mkdir -p target/tests 2>/dev/null && [ -w target/tests ]; } ||
    stops "$here/target/tests may not be written: ask its owner for the right to, then run this again"
# a compiler without its C library is told before anything is proved
printf '#include <stdio.h>\nint main(void) { return 0; }\n' | "$cc" -static -x c -o target/tests/empty - ||
    stops "$cc has no C library to link with -static: install it (libc6-dev on Debian, glibc-static on Fedora), then run this again"
echo "proving and building the library for C (up to 10 minutes the first time, seconds after that)" >&2
library rig >&2 || fails "the library for C is not built, so nothing is asked: rt says above why"
"$cc" -std=c99 -Wall -Wextra -Wpedantic -Werror -I include -static -o target/tests/choice examples/choice.c crates/rig/out/librig.a ||
    fails "examples/choice.c is not built, so nothing is asked: $cc says above why"
$run target/tests/choice "$input"
