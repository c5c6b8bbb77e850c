#!/usr/bin/env bash
# What a user of the C interface touches: the header, the examples, and that the README shows the first of them as it is.
# The last line is 'N passed, M failed'.
set -u -o pipefail
cd "$(dirname "$0")/.." || exit 2
passed=0
failed=0
work=$(mktemp -d)
trap 'rm -rf "$work"' EXIT
strict="-Wall -Wextra -pedantic -Werror -Iinclude"

test_of() {
    local name=$1
    shift
    if "$@" > "$work/log" 2>&1; then
        passed=$((passed + 1))
        echo "  $name: ok"
    else
        failed=$((failed + 1))
        echo "  $name: FAILED"
        cat "$work/log"
    fi
}

header_alone() {
    gcc -std=c99 $strict -fsyntax-only -x c include/alf.h && g++ -std=c++11 $strict -fsyntax-only -x c++ include/alf.h
}

# alf_meaning, compiled as C and as C++, has a message of its own for the numbers that enum alf_fault names, and for no other
messages() {
    local named compile
    named=$(awk '/^enum alf_fault/ { on = 1 } /^}/ { on = 0 } on && $2 == "=" { print $3 + 0 }' include/alf.h)
    cat > "$work/messages.c" << 'END'
#include "alf.h"
#include <stdio.h>
int main(void)
{
    for (int number = 0; number < 256; number++)
        printf("%d %s\n", number, alf_meaning((uint8_t)number));
    return 0;
}
END
    for compile in "gcc -std=c99 -x c" "g++ -std=c++11 -x c++"; do
        $compile $strict "$work/messages.c" -o "$work/messages" && "$work/messages" > "$work/stdout" || return 1
        diff <(echo "$named") <(grep -v ' not a number of this library$' "$work/stdout" | cut -d ' ' -f 1) || return 1
    done
}

example() {
    gcc -std=c11 $strict "examples/$1.c" target/staticlib/libalf_c.a -o "$work/$1" && "$work/$1" > "$work/stdout" &&
        diff "examples/$1.stdout" "$work/stdout"
}

# the first block of C in the README, and what the README says it prints
readme() {
    awk '/^```c$/ { on = 1; next } /^```$/ { if (on) exit } on' README.md | diff - examples/luma.c &&
        sed 's/^/    /' examples/luma.stdout | while IFS= read -r line; do grep -qxF -- "$line" README.md || { echo "not in README: $line"; exit 1; }; done
}

# nothing but the eight functions is exported, and nothing is asked for but what fills memory and copies it
symbols() {
    local expected="alf_bank_read alf_bank_write alf_chroma alf_classes alf_clip_causes alf_cross_component alf_isolated alf_luma"
    [[ "$(nm --defined-only -g target/staticlib/libalf_c.a | awk 'NF == 3 { print $3 }' | sort | tr '\n' ' ')" == "$expected " ]] &&
        ! nm -u target/staticlib/libalf_c.a | awk 'NF == 2 { print $2 }' | grep -vxE 'mem(cpy|set)'
}

test_of "the header by itself, in C99 and C++11" header_alone
test_of "the message of each number, in C99 and C++11" messages
test_of "the example of the luma filter compiles, runs and prints what it should" example luma
test_of "the example of a bank file likewise" example bank
test_of "the README shows the example and what it prints" readme
test_of "the library's names" symbols
echo "$passed passed, $failed failed"
[[ $failed -eq 0 ]]
