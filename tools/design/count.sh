#!/bin/sh
# count.sh [COMMIT]: how many places of each point of docs/DESIGN-PASS.md stand in src/ at that commit, by the text of the lines. `count.sh COMMIT list` shows each.
at=${1:-HEAD}
show=${2:-count}
n() { # NAME PATTERN
    if [ "$show" = list ]; then
        echo "## $1"
        git grep -nE "$2" "$at" -- 'crates/*/src/*.rt' | sed 's/^[^:]*://'
    else
        printf '%-62s %4s\n' "$1" "$(git grep -nE "$2" "$at" -- 'crates/*/src/*.rt' | wc -l)"
    fi
}
n '1 own enums of the shape of Option or Result' '^(pub )?enum (Answer|Bound|Found|Ending|Reading|Writing|Taken|Listing|Row|Span)\b'
n '1 a flag, an answer or a refusal with a value beside it' '^    pub (found: bool|live: bool|answer: ([a-z_]+::)?Answer|refusal: u8),'
n '1 a refusal or a fault as a number' 'fn [a-z_]*(fault|judge|bar)[a-z_]*\(.*-> u8|Refused\(u8\)|(number|refusal): u8|(fault|barred|broken|refusal) (!=|==) 0|Refused\([0-9]|number: [0-9]'
n '1 a kind or a rule as a number' '(kind|rule): u(8|32|64)\b|\.kind|\.rule'
n '2 twins by type, size or constant' 'fn (get32|get64|put32|put64|byte|wide|told|refusal|each|smaller|larger|tallies_hold|carried|close_of|choose_of|brumerola_bench_apply(_in)?|rule_sum|apply_sum|run_in)\(|^ *c: 0,$|^ *found: false,$'
n '3 loops that count or step by hand' '^ *(while |loop \{)'
n '4 equality, order, copying, conversion and printing by hand' 'fn (wide|byte|smaller|larger|least|one_less|next|one_if|narrow|places|class|raise|copied|put_row|put|alike|stands|records|states|code|both|text|number|row|field)\('
n '5 parameters that always travel together: the bytes and the place' '(out|all): &(mut )?\[u8\], at: usize'
n '5 a fact in the contracts of three functions or more' 'requires.*(count ≤ place_count|TallySound|StateSound|judged table ≡|Ready)'
n '6 a length beside a buffer, arrays side by side' '^    pub (costs|spacings|cells|records|tasks|row|seen): \[|\[u64; CELLS\]'
n '7 a switch on which step to run' '(kind|rule) == [A-Z0-9]|how == [0-9]|< event\.kind|if met \{'
