# shellcheck shell=sh disable=SC2034
# Sourced by the examples: what they were given is looked at before anything is proved. `about` is what --help says behind the usage.
# It sets `here`, the repository's top, and `input`, the file as a whole path.

# stops WORDS..: the one line that says what is wrong, where and what to do
stops() {
    printf '%s: %s\n' "$(basename "$0")" "$*" >&2
    exit 2
}

# fails WORDS..: the last line where a build failed, behind what its tool wrote
fails() {
    printf '%s: %s\n' "$(basename "$0")" "$*" >&2
    exit 1
}

# quoted NAME: the name as a shell takes it
quoted() {
    case $1 in
    *[!A-Za-z0-9_./-]*) printf "'%s'" "$(printf '%s' "$1" | sed "s/'/'\\\\''/g")" ;;
    *) printf '%s' "$1" ;;
    esac
}

# is_text NAME: a text is told with the two commands that take it, as they are called from where one stands
is_text() {
    tool=./brumerola
    [ "$PWD" = "$here" ] || tool=$(quoted "$here/brumerola")
    text=$(quoted "$1")
    stops "$1 is text: list it with $tool list $text, or make its bytes with $tool bytes $text -o $(quoted "${1%.txt}.bin")"
}

here=$(dirname "$(dirname "$(readlink -f "$0")")")
case ${1-} in
-h | --help)
    printf '%s\n' "usage: $0 [FILE]" "${about-}"
    exit 0
    ;;
--) shift ;;
-?*) stops "$1 is no option: run $0 --help, or put -- before a file of this name" ;;
esac
[ $# -le 1 ] || stops "$# files are given: give one, or none for the example"
input=${1-$here/examples/line.bin}
# a name that begins with a dash would be taken for an option further on
case $input in
-*) input=./$input ;;
esac
[ -n "$input" ] || stops "the file's name is empty: give a name, or nothing for the example"
[ -e "$input" ] || stops "$input: there is no such file: look at the name and the folder"
[ ! -d "$input" ] || stops "$input is a folder: give a file"
[ -r "$input" ] || stops "$input may not be read: ask its owner for the right to, or give another file"
case $input in
*.txt) is_text "$input" ;;
/*) ;;
*) input=$PWD/$input ;;
esac
command -v rt >/dev/null || stops "rt is not here: install the Rattle toolchain, and put its bin folder into PATH"
