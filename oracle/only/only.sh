#!/bin/sh
# only.sh FOLDER "CRATES" "ENTRIES": a repository in FOLDER, outside this one, that has these crates,
# what they depend on, and of the library for C these entries alone. The entries are the library's own,
# without their contracts: so they need none of its definitions and proofs, and the prover shows of them
# that they call what is promised for all input and reach past no area.
set -eu
folder=$1 crates=$2 entries=$3

# Every crate that these reach, in the order of crates.txt.
reached=$(WANTED="$crates" awk '
    { sub(/#.*/, "") }
    /:/ { name = $1; sub(/:.*/, "", name); rest = $0; sub(/^[^:]*:/, "", rest); deps[name] = rest; list[++count] = name }
    function visit(name, parts, n, k) {
        if (seen[name]++) return
        n = split(deps[name], parts, " ")
        for (k = 1; k <= n; k++) if (parts[k] in deps) visit(parts[k])
    }
    END {
        n = split(ENVIRON["WANTED"], wanted, " ")
        for (k = 1; k <= n; k++) {
            if (!(wanted[k] in deps)) { print wanted[k] " is not in crates.txt" > "/dev/stderr"; exit 1 }
            visit(wanted[k])
        }
        for (k = 1; k <= count; k++) if (seen[list[k]]) print list[k]
    }' crates.txt)

# With what checks kept of the crates, so that only what changed is proved.
rm -rf "$folder"
mkdir -p "$folder/crates/hencouch/src"
for name in $reached; do
    cp -R "crates/$name" "$folder/crates/$name"
    grep "^$name:" crates.txt >>"$folder/crates.txt"
done
echo "hencouch staticlib:" $reached >>"$folder/crates.txt"
: >"$folder/.git"

{
    echo '#![tactic(auto)]'
    ENTRIES="$entries" CRATES=$(echo $reached) awk -f oracle/only/entries.awk \
        oracle/only/areas.txt crates/areas/src/*.rt crates/predicting/src/*.rt crates/hencouch/src/*.rt
} >"$folder/crates/hencouch/src/lib.rt"
