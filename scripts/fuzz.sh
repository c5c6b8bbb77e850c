#!/usr/bin/env bash
# Arbitrary arguments for the C interface: fuzz.sh RUNS [SEED]. By libFuzzer, or where clang cannot link it, by a seeded generator.
set -u -o pipefail
usage() { echo "usage: scripts/fuzz.sh RUNS [SEED]    (whole numbers; seed 1 where none is given)" >&2; exit 2; }
[[ $# -ge 1 && $# -le 2 && $1 =~ ^[0-9]+$ && ${2:-1} =~ ^[0-9]+$ ]] || usage
cd "$(dirname "$0")/.." || exit 2
runs=$1
seed=${2:-1}
library=target/staticlib/libalf_c.a
[[ -f $library ]] || { echo "$library is missing: run make lib first" >&2; exit 2; }
mkdir -p target/fuzz/corpus
sources="host/fuzz/fuzz.c host/fuzz/bank_files.c host/fuzz/buffers.c"
if clang -O2 -fsanitize=fuzzer $sources "$library" -o target/fuzz/fuzz 2> target/fuzz/clang.log; then
    echo "libFuzzer: $runs runs from seed $seed"
    target/fuzz/fuzz -runs="$runs" -seed="$seed" -max_len=160 -print_pcs=0 -artifact_prefix=target/fuzz/ target/fuzz/corpus 2> target/fuzz/log &
    fuzzer=$!
    while sleep 10 && kill -0 "$fuzzer" 2> /dev/null; do grep -a '^#' target/fuzz/log | tail -n 1 | cut -c 1-70; done
    wait "$fuzzer" || { tail -n 40 target/fuzz/log >&2; exit 1; }
    grep -a -A 8 '^calls by answer' target/fuzz/log
else
    echo "libFuzzer is not at hand; a seeded generator: $runs runs from seed $seed"
    gcc -O2 $sources host/fuzz/driver.c "$library" -o target/fuzz/driver && target/fuzz/driver "$runs" "$seed" 2>&1
fi
