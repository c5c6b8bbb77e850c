#!/usr/bin/env bash
# The Rust tests. ALF_SEED and ALF_CASES choose the random input (host/compare/src/seeds.rs). The last line is 'N passed, M failed'.
set -u -o pipefail
cd "$(dirname "$0")/.." || exit 2
log=$(mktemp)
trap 'rm -f "$log"' EXIT
# what the C interface has no function for, and these tests ask: the direction test, and the program that names filters of a bank file
scripts/build.sh direction_c cross_filters > "$log" 2>&1 || { cat "$log"; echo "0 passed, 1 failed"; exit 1; }
cd host || exit 2
cargo test --workspace --offline --no-fail-fast -- --nocapture 2>&1 | tee "$log" | grep --line-buffered -vE '^(running|$)'
status=${PIPESTATUS[0]}
read -r passed failed < <(awk '/^test result:/ { p += $4; f += $6 } END { print p + 0, f + 0 }' "$log")
# a program that crashes or does not compile counts nothing for itself
if [[ $status -ne 0 && $failed -eq 0 ]]; then failed=1; fi
echo "$passed passed, $failed failed"
[[ $failed -eq 0 && $passed -gt 0 ]]
