#!/usr/bin/env bash
# What decides a class, `class_of_sums` and all that it calls, has no number wider than 32 bits, and its one multiplication is of two
# u16 (02, card 3). No contract can say this of the code that it stands on, so this reads the code, without comments and contracts. A
# place in one of the two tables is an address, as wide as the machine has them, and nothing is worked out with it.
set -u -o pipefail
cd "$(dirname "$0")/../crates/alf_direction/src" || exit 2
files="direction.rt products.rt"
failed=0

# what is not as it should be, and the lines that show it
wrong() {
    echo "$1"
    sed 's/^/    /' <<< "$2"
    failed=1
}

# without comments, and without contracts, each of which ends with a line's last }
code=$(for file in $files; do sed -E 's|//.*||; /^ *ghost use /d' "$file" | awk '/^ *(requires|ensures) / { on = 1 } on { if (/}$/) on = 0; next } 1'; done)
type='[A-Z][a-z]+'
entry='[a-z]+_entry'
beyond=$(grep '::' <<< "$code" |
    grep -vE "^use (alf_spec::($type|\{$type(, $type)*\})|crate::(products::product_less|tables::($entry|\{$entry(, $entry)*\})));$")
called=$(grep -v "derive" <<< "$code" | grep -oE "\b[a-z][a-z_0-9]*\(" | tr -d "(" | sort -u)
defined=$(grep -oE '\bfn [a-z][a-z_0-9]*' <<< "$code" | sed 's/^fn //')
elsewhere=$(grep -vxE "$entry" <<< "$called" | grep -vxF "$defined")
methods=$(grep -nE '\.[a-z_0-9]+\(|[a-z]!' <<< "$code")
derived=$(grep -n 'derive' <<< "$code" | grep -vF '#[derive(Clone, Copy)]')
wide=$(grep -nE '\b([ui](64|128|size)|f(32|64))\b' <<< "$code")
factors=$(grep -n '\*' <<< "$code" | grep -vF '(a as u32) * (b as u32)')
[[ -z $beyond ]] || wrong "it calls code outside $files:" "$beyond"
[[ -z $elsewhere ]] || wrong "it calls a function that does not stand in $files:" "$elsewhere"
[[ -z $methods ]] || wrong "it calls a method or a macro:" "$methods"
[[ -z $derived ]] || wrong "what is derived is code that does not stand in $files:" "$derived"
[[ -z $wide ]] || wrong "a number wider than 32 bits:" "$wide"
[[ -z $factors ]] || wrong "a multiplication that does not go through \`times\`:" "$factors"
grep -qF 'fn times(a: u16, b: u16) -> u32' <<< "$code" || wrong "\`times\` does not take two u16" "$(grep -n 'fn times' <<< "$code")"
[[ $(grep -cF '(a as u32) * (b as u32)' <<< "$code") -eq 1 ]] || wrong "more than one multiplication:" "$(grep -n '\*' <<< "$code")"
exit $failed
