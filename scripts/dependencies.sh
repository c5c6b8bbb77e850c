#!/usr/bin/env bash
# Prints the lines that crates.txt should have, in its order: for each listed crate those of the repository that its code, definitions and
# proofs name themselves, and those of the kit that its code takes by a `use` line, but for std, which is never listed. `rt` finds what
# these stand on by itself.
set -u -o pipefail
cd "$(dirname "$0")/.." || exit 2
listed=$(grep -v '^#' crates.txt | sed 's/[ :].*//')
kit=$(find "$(dirname "$(rt doc)")/rlibs" -name '*.rlib' -printf '%f\n' | sed 's/\.rlib$//' | grep -vx std)
while read -r crate kind; do
    own=()
    for folder in src specs proofs; do [[ -d crates/$crate/$folder ]] && own+=("crates/$crate/$folder"); done
    # names in `Rattle.NAME.specs..`, `use NAME::..` and `NAME::function(..)`
    named=$(grep -rhoP '(?<![\w.])Rattle\.\K[a-z_0-9]+(?=\.)|(?<![\w:])[a-z_0-9]+(?=::)' "${own[@]}" --include='*.rt' --include='*.antt' | sort -u)
    used=$(grep -rhoP '^ *(pub )?use \K[a-z_0-9]+(?=[:;])' "crates/$crate/src" | sort -u)
    line="$crate${kind:+ $kind}:"
    for name in $(sort -u <(comm -12 <(sort <<< "$listed") <(printf '%s\n' "$named")) <(comm -12 <(sort <<< "$kit") <(printf '%s\n' "$used"))); do
        [[ $name == "$crate" ]] || line+=" $name"
    done
    echo "$line"
done < <(grep -v '^#' crates.txt | sed 's/:.*//')
