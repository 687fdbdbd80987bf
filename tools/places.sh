#!/usr/bin/env bash
# Counts the places in src/ that docs/DESIGN-PASS.md speaks of: tools/places.sh [-l] [ROOT]. With -l it lists them.
# A line found is a place to look at. Rows with (then) look for the names of functions that stood when that page began. Twins are not
# counted here: see that page.
set -u
list=no
[ "${1:-}" = -l ] && { list=yes; shift; }
cd "${1:-$(dirname "$0")/..}" || exit 1

show() {
    local name=$1
    shift
    local found
    found=$("$@" | grep -vE '^[^:]*:[0-9]*: *//')
    printf '%-40s %s\n' "$name" "$(printf '%s' "$found" | grep -c .)"
    [ $list = no ] || [ -z "$found" ] || printf '%s\n' "$found" | sed 's/^/    /'
}

lines() { grep -nE "$1" crates/*/src/*.rt; }

# clauses that stand three times or more
clauses() {
    grep -hoE '(requires|ensures)\*?( [a-z_]+)? \{.*\}' crates/*/src/*.rt |
        sed -E 's/^(requires|ensures)\*?( [a-z_]+)? //' | sort | uniq -c | awk '$1 >= 3' | sort -rn | sed -E 's/^ *([0-9]+) /\1:0: /'
}

# members of a bound that are passed on one after the other
members() {
    local one='([A-Z]\w*\.)+[A-Z]\w*\.\w+'
    grep -hoE "$one( $one)+" crates/*/src/*.rt | sort | uniq -c | sort -rn | sed -E 's/^ *([0-9]+) /\1:0: /'
}

show '1 own enums'                    lines '^ *(pub(\([a-z]+\))? )?enum '
show '1 bool, Option for an error (then)' lines 'fn (push|push_left|has_count|without|known)\b.*-> (bool|Option)'
show '1 numbers for kinds, refusals'  lines '^ *(pub )?const [A-Z_]+: u8|-> \(?u8|=> [0-9]+,$'
show '1 Option or Result by cases'    lines '^ *(None|Err\(_\)|Err\([a-z]+\)|Ok\(\(\)\)) => (None|Err|Ok|Some|0|1|false|true|E::|b,)|Err\(AllocError\)'
show '3 counted or written out'       lines '^ *(for [a-z_]+ in [^{]*\.\.|while )|^ *(n|number|i|lived) \+= 1'
show '3 all for loops'                lines '^ *for '
show '4 tests by cases'               lines '=> (true|false),$'
show '4 conversions, printing (then)' lines 'fn (from_code|of|number|number_of|kind|words|print_[a-z]+|[a-z]+_text|push_(number|numbers|value|end)|bound|code|flag|call|turns_of|ask)\b *[<(]'
show '5 clauses that stand thrice'    clauses
show '5 members that travel together' members
show '6 arrays, lengths, numbers'     lines '^ *(pub(\([a-z]+\))? )?[a-z_]+: (\[[A-Za-z0-9<>]+; ?[0-9A-Z_]+\]|usize,|&.*mut \[)|count: usize|list: \[|parent: u16'
show '7 steps by a switch'            lines 'fn\(|dyn |impl Fn|match (step|\(self\.state, call\)|call|letter|self\.state|header\.held) '
show '8 answer files'                 find crates/*/proofs -name Answers.antt
printf '%-40s %s\n' '8 lines of answers' "$(find crates/*/proofs -name Answers.antt -print0 | xargs -0 cat | wc -l)"
