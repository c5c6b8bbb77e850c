#!/usr/bin/env bash
# Proves crates and writes what they are for: build.sh NAME.. A static library goes to target/staticlib/libNAME.a, a program to
# target/bin/NAME. A line for each crate shows how far it is; the first time takes some minutes.
set -u -o pipefail
[[ $# -ge 1 ]] || { echo "usage: scripts/build.sh CRATE..    (static libraries and programs of crates.txt)" >&2; exit 2; }
cd "$(dirname "$0")/.." || exit 2
top=$PWD
command -v rt > /dev/null || { echo "rt is not on the path: the Rattle kit is needed" >&2; exit 2; }
mkdir -p target/staticlib target/bin
log=$(mktemp)
trap 'rm -f "$log"' EXIT

# Runs rt in a crate's folder, and names each crate that it proves on the way. All that it says is shown where it fails.
run() {
    local crate=$1
    shift
    (cd "$top/crates/$crate" && "$@") 2>&1 < /dev/null | tee "$log" | sed -un 's/^rt: chose --jobs [0-9]* for \([a-z_0-9]*\)$/  proving \1/p'
    [[ ${PIPESTATUS[0]} -eq 0 ]] || { cat "$log" >&2; return 1; }
}

for crate in "$@"; do
    [[ -d crates/$crate/src ]] || { echo "no crate $crate" >&2; exit 2; }
    began=$SECONDS
    if [[ -f crates/$crate/src/main.rt ]]; then
        # a run is what builds a program; here its input is empty, and what it prints isn't looked at
        run "$crate" rt run || exit 1
        cp "crates/$crate/out/$crate" "target/bin/$crate" || exit 1
        made=target/bin/$crate
    else
        run "$crate" rt lib || exit 1
        cp "crates/$crate/out/lib$crate.a" "target/staticlib/lib$crate.a" || exit 1
        made=target/staticlib/lib$crate.a
    fi
    echo "$made ($((SECONDS - began)) s)"
done
