#!/bin/sh
# The shell examples: their line, its stream and their exit status for each thing that they can be given, and for each tool that can be missing or fail.
set -eu
cd "$(dirname "$(readlink -f "$0")")/.."
. tests/machine.sh
compiler
top=$PWD
work=$(mktemp -d)
trap 'rm -rf "$work"' EXIT
ran=0

# example NAME WORDS..: runs examples/NAME.sh from the folder `from`, with the tools of the folders `path`
example() {
    name=$1
    shift
    status=0
    (cd "$from" && PATH=$path "$top/examples/$name.sh" "$@") >"$work/out" 2>"$work/err" || status=$?
}

# has STATUS ERROR: the run before ended so, and its last line on standard error is this one
has() {
    ran=$((ran + 1))
    if [ "$status" -eq "$1" ] && [ "$(tail -n 1 "$work/err")" = "$2" ]; then return; fi
    printf '%s\n' "examples.sh: case $ran should end with $1 and say '$2'; it ended with $status, and:"
    cat "$work/out" "$work/err"
    exit 1
}

# silent FILE: the run before wrote nothing there
silent() {
    if [ ! -s "$1" ]; then return; fi
    echo "examples.sh: case $ran should write nothing to this stream, and wrote:"
    cat "$1"
    exit 1
}

# stops LINE NAME WORDS..: one line and no more, before anything is built
stops() {
    line=$1
    shift
    example "$@"
    has 2 "$1.sh: $line"
    silent "$work/out"
    only_line
}

only_line() {
    if [ "$(wc -l <"$work/err")" -eq 1 ]; then return; fi
    echo "examples.sh: case $ran should say one line, and said:"
    cat "$work/err"
    exit 1
}

# helps NAME: the run before printed the usage, and then in four lines what the example does, takes, needs with how long it takes, and ends with
helps() {
    heads=$(head -n 1 "$work/out" && tail -n +2 "$work/out" | cut -d ' ' -f 1-2)
    right=$(printf '%s\n' "usage: $top/examples/$1.sh [FILE]" 'Proves and' 'FILE holds' 'It needs' 'It ends')
    if [ "$heads" = "$right" ] && grep -q 'It needs rt .* The first time takes' "$work/out"; then return; fi
    echo "examples.sh: case $ran should print its help, and printed:"
    cat "$work/out"
    exit 1
}

# prints FILE NAME WORDS..: the answer is that file, whatever rt wrote on standard error
prints() {
    right=$1
    shift
    example "$@"
    has 0 "$(tail -n 1 "$work/err")"
    cmp "$work/out" "$right"
}

# tool FOLDER NAME BODY: a program of that name in a folder of its own, beside the toolchain's loader
tool() {
    mkdir -p "$work/$1/bin"
    ln -sfn "$kit/toolchain" "$work/$1/toolchain"
    printf '#!/bin/sh\n%s\n' "$3" >"$work/$1/bin/$2"
    chmod +x "$work/$1/bin/$2"
}

# few: the tools that the examples use before they build; rt and a compiler are not among them, nor what installs one
mkdir "$work/few" "$work/with_rt"
for tool in sh dirname basename readlink uname sed mkdir; do ln -s "$(command -v "$tool")" "$work/few/$tool"; done
ln -s "$(readlink -f "$(command -v rt)")" "$work/with_rt/rt"
# proves nothing, but takes what stands on its input, and writes
tool idle rt 'cat >/dev/null; echo "rt: ok"'
tool broken rt 'echo "rt: a proof fails" >&2; exit 1'
tool no_library "$cc" 'echo "cannot find -lc" >&2; exit 1'
# the example alone does not compile
tool no_example "$cc" "case \$* in *choice.c*) echo 'an error' >&2; exit 1 ;; esac; exec $(command -v "$cc") \"\$@\""

cp examples/line.bin "$work/a line.bin"
cp examples/line.bin "$work/-line.bin"
: >"$work/a line.txt"
: >"$work/it's.txt"
: >"$work/-line.txt"

# what they are given, looked at before any tool
for name in list choice; do
    path=$work/few from=$top
    for asked in -h --help; do
        example "$name" "$asked"
        has 0 ''
        silent "$work/err"
        helps "$name"
    done
    stops '2 files are given: give one, or none for the example' "$name" examples/line.bin examples/line.bin
    stops '2 files are given: give one, or none for the example' "$name" -- examples/line.bin examples/line.bin
    stops "-x is no option: run $top/examples/$name.sh --help, or put -- before a file of this name" "$name" -x
    stops "the file's name is empty: give a name, or nothing for the example" "$name" ''
    stops "the file's name is empty: give a name, or nothing for the example" "$name" -- ''
    stops 'no such.bin: there is no such file: look at the name and the folder' "$name" 'no such.bin'
    stops './-none.bin: there is no such file: look at the name and the folder' "$name" -- -none.bin
    stops 'examples is a folder: give a file' "$name" examples
    # root may read every file
    if [ "$(id -u)" -ne 0 ]; then
        : >"$work/shut.bin"
        chmod 0 "$work/shut.bin"
        stops "$work/shut.bin may not be read: ask its owner for the right to, or give another file" "$name" "$work/shut.bin"
        rm -f "$work/shut.bin"
    fi
    text=examples/line.txt
    stops "$text is text: list it with ./brumerola list $text, or make its bytes with ./brumerola bytes $text -o examples/line.bin" "$name" "$text"
    # from another folder, and names that a shell would take apart
    from=$work
    there=$top/brumerola
    case $there in *[!A-Za-z0-9_./-]*) there="'$there'" ;; esac
    stops "a line.txt is text: list it with $there list 'a line.txt', or make its bytes with $there bytes 'a line.txt' -o 'a line.bin'" "$name" 'a line.txt'
    stops "it's.txt is text: list it with $there list 'it'\\''s.txt', or make its bytes with $there bytes 'it'\\''s.txt' -o 'it'\\''s.bin'" "$name" "it's.txt"
    stops "./-line.txt is text: list it with $there list ./-line.txt, or make its bytes with $there bytes ./-line.txt -o ./-line.bin" "$name" -- -line.txt
    stops 'rt is not here: install the Rattle toolchain, and put its bin folder into PATH' "$name" 'a line.bin'
done

# a tool that is missing or fails
path=$work/with_rt:$work/few
example choice
case $cc in
gcc) has 2 'gcc is not here: install it as root (apt-get install gcc libc6-dev), then run this again' ;;
*) has 2 "$cc is not here: install it as root (apt-get install gcc-x86-64-linux-gnu libc6-dev-amd64-cross), then run this again" ;;
esac
silent "$work/out"
only_line
path=$work/no_library/bin:$PATH
example choice
has 2 "choice.sh: $cc has no C library to link with -static: install it (libc6-dev on Debian, glibc-static on Fedora), then run this again"
silent "$work/out"
if grep -q proving "$work/err"; then echo "examples.sh: the compiler was looked at too late" && exit 1; fi
path=$work/broken/bin:$PATH
example list
has 1 'list.sh: the listing program is not built, so nothing is listed: rt says above why'
silent "$work/out"
example choice
has 1 'choice.sh: the library for C is not built, so nothing is asked: rt says above why'
silent "$work/out"
path=$work/no_example/bin:$work/idle/bin:$PATH
example choice
has 1 "choice.sh: examples/choice.c is not built, so nothing is asked: $cc says above why"
silent "$work/out"

# whole runs: first with the toolchain, which builds, then with what it built; any name, and a pipe
echo 'no job is open' >"$work/none_open"
path=$PATH
prints examples/line.out list 'a line.bin'
prints "$work/none_open" choice 'a line.bin'
path=$work/idle/bin:$PATH
prints examples/line.out list -- -line.bin
prints "$work/none_open" choice -- -line.bin
prints examples/line.out list
prints "$work/none_open" choice --
# shellcheck disable=SC2002
cat examples/line.bin | prints examples/line.out list /dev/stdin
# shellcheck disable=SC2002
cat examples/line.bin | prints "$work/none_open" choice /dev/stdin
echo "$ran cases of the shell examples"
