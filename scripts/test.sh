#!/usr/bin/env bash
# Every test of the repository. The last line is 'N passed, M failed'; the exit status is 0 only where M is 0 and something passed.
set -u -o pipefail
cd "$(dirname "$0")/.." || exit 2
passed=0
failed=0
log=$(mktemp)
trap 'rm -f "$log"' EXIT

# How long a part took, since the gate has a budget (docs/testing.md).
took() { echo "== $1: $(($2 / 60)) min $(($2 % 60)) s"; }

# A part that is one test: it passes where the command does.
single() {
    local name=$1 began=$SECONDS
    shift
    echo "== $name"
    if "$@"; then passed=$((passed + 1)); else failed=$((failed + 1)); echo "FAILED: $name"; fi
    took "$name" $((SECONDS - began))
}

# A part that counts for itself: the last line of the command's output is 'N passed, M failed'. It is shown but for that line, since the
# sum is printed at the end. A part with no such line, or that ends with another status than its count says, has failed.
counted() {
    local name=$1 status last began=$SECONDS
    shift
    echo "== $name"
    "$@" 2>&1 | tee "$log" | grep --line-buffered -vE '^[0-9]+ passed, [0-9]+ failed$'
    status=${PIPESTATUS[0]}
    last=$(tail -n 1 "$log")
    if [[ $last =~ ^([0-9]+)\ passed,\ ([0-9]+)\ failed$ ]]; then
        echo "== $name: ${BASH_REMATCH[1]} of $((BASH_REMATCH[1] + BASH_REMATCH[2]))"
        passed=$((passed + BASH_REMATCH[1]))
        failed=$((failed + BASH_REMATCH[2]))
        if [[ $status -ne 0 && ${BASH_REMATCH[2]} -eq 0 ]]; then failed=$((failed + 1)); fi
    else
        echo "FAILED: $name gave no count (exit status $status)"
        failed=$((failed + 1))
    fi
    took "$name" $((SECONDS - began))
}

# crates.txt names for each crate what it uses itself, and no more.
dependencies() { diff <(grep -v '^#' crates.txt) <(scripts/dependencies.sh); }

# The proofs, the edits and the programs. rt passes where an edit cannot be applied, compiled or read; here that fails.
proofs() {
    local report status
    report=$(mktemp)
    rt ci 2>&1 | tee "$report" | grep --line-buffered -vE '^[0-9]+ passed, [0-9]+ failed'
    status=${PIPESTATUS[0]}
    local last more=0
    last=$(grep -E '^[0-9]+ passed, [0-9]+ failed' "$report" | tail -n 1)
    if grep -qE '^rt: ok.*, [1-9][0-9]* bad' "$report"; then more=1; status=1; echo "FAILED: an edit that cannot be tried"; fi
    rm -f "$report"
    [[ $last =~ ^([0-9]+)\ passed,\ ([0-9]+)\ failed ]] && echo "${BASH_REMATCH[1]} passed, $((BASH_REMATCH[2] + more)) failed"
    return "$status"
}

# The layout of the Rust sources, without a network or a registry.
host_layout() { (cd host && cargo fmt --check --quiet); }

# What the demo prints is stored; it also fails by itself where the library does not do what it promises.
demo() {
    (cd host && cargo build --quiet --release --offline -p demo) && target/cargo/release/demo --out target/demo > "$log" && diff host/demo/stdout "$log" &&
        echo "  $(ls target/demo | wc -l) pictures"
}

# The benchmark's C gives the same classes and samples as the library, on small pictures; nothing is timed here.
bench_agrees() { (cd host && cargo build --quiet --release --offline -p bench) && target/cargo/release/bench --check; }

single "layout of the host's sources" host_layout
single "the crates that each crate names" dependencies
single "the widths of what decides a class" scripts/class-widths.sh
counted "proofs, must-fail edits and programs" proofs
single "the static library" scripts/build.sh alf_c
counted "the C interface from C" scripts/c-tests.sh
counted "the library beside the model" scripts/host-tests.sh
single "arbitrary arguments, short" scripts/fuzz.sh 200000
single "the demo" demo
single "the library beside plain C" bench_agrees

took "all parts" $SECONDS
echo "$passed passed, $failed failed"
[[ $failed -eq 0 && $passed -gt 0 ]]
