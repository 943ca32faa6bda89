# shellcheck shell=sh disable=SC2034
# Programs of the toolchain are for x86-64. Sourced at the repository's top by what builds or starts one; it sets
#   run      what starts an x86-64 program that is linked whole: nothing on such a machine, an emulator on another
#   start    what starts a program as the toolchain links it
#   tools    the toolchain's compiler, loader and C library
#   parts    what the toolchain links to the object file of a program
# and `compiler` sets
#   cc       what compiles C for x86-64, and `client` the rig's client
# All install what is missing.

# packages WORDS..: apt-get, which waits for another that is at work
packages() { apt-get -o DPkg::Lock::Timeout=300 "$@"; }

# needs COMMAND PACKAGE..: installs the packages where the command is not there
needs() {
    command -v "$1" >/dev/null 2>&1 && return 0
    wanted=$1
    shift
    { packages install -y "$@" || { packages update && packages install -y "$@"; }; } >/dev/null 2>&1 && return 0
    echo "$wanted is not here: install it as root (apt-get install $*), then run this again" >&2
    return 1
}

kit=$(dirname "$(dirname "$(readlink -f "$(command -v rt)")")")
tools=$kit/toolchain
parts="$kit/c/libos_c.a $kit/c/liblibc_c.a"
emulator() { needs qemu-x86_64 qemu-user >&2 && command -v qemu-x86_64; }

compiler() {
    if [ "$(uname -m)" = x86_64 ]; then
        needs gcc gcc libc6-dev || return 1
        cc=gcc
    else
        needs x86_64-linux-gnu-gcc gcc-x86-64-linux-gnu libc6-dev-amd64-cross || return 1
        cc=x86_64-linux-gnu-gcc
    fi
}

# program NAME: crates/NAME/out/NAME as the sources have it, and its object file beside it, which rt does not look for; rt starts it too, on nothing
program() {
    [ -f "crates/$1/out/$1.o" ] || rm -f "crates/$1/out/$1.stamp"
    (cd "crates/$1" && rt run >/dev/null </dev/null)
}

# library NAME: crates/NAME/out/libNAME.a as the sources have it
library() { (cd "crates/$1" && rt lib </dev/null); }

# client WORDS..: the rig's client over the static library, by these words of the compiler
client() { "$cc" -std=c99 -Wall -Wextra -Werror -O2 -I include "$@" tests/c/rig.c crates/rig/out/librig.a -lpthread; }

if [ "$(uname -m)" = x86_64 ]; then
    run='' start=''
else
    run=$(emulator) || exit 1
    start="$run $tools/lib/ld-linux-x86-64.so.2 --library-path $tools/lib"
fi
