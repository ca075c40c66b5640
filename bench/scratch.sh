# For the scripts beside, which set `here` and then read this: the C program is built in a scratch folder outside, which goes with the
# script; `build_timed` proves and builds a program there over the crates that it uses and all below them, as crates.txt has them.
# The C is compiled for the processor at hand, so the programs are too, for any that has AVX2.
set -eu
top="$(cd "$(dirname "${BASH_SOURCE[0]}")/.." && pwd)"
work="$(mktemp -d)"
trap 'rm -rf "$work"' EXIT
[ ! -e "$here/baseline.c" ] || gcc -O3 -march=native -o "$work/baseline" "$here/baseline.c"

# The crates of the repository among the given ones and below them, each once.
crates_below() {
    awk -v wanted="$*" '
        { sub(/#.*/, "") }
        /:/ { name = $1; sub(/:$/, "", name); $1 = ""; uses[name] = $0 }
        END { count = split(wanted, queue); for (i = 1; i <= count; i++) if (queue[i] in uses && !(queue[i] in seen)) {
            seen[queue[i]]; print queue[i]; more = split(uses[queue[i]], below); for (j = 1; j <= more; j++) queue[++count] = below[j] } }' "$top/crates.txt"
}

# Copies a crate into the scratch repository, with its line of crates.txt.
copy_crate() {
    mkdir -p "$work/repository/crates/$1"
    for part in src specs proofs; do
        if [ -d "$top/crates/$1/$part" ]; then cp -r "$top/crates/$1/$part" "$work/repository/crates/$1/"; fi
    done
    grep "^$1:" "$top/crates.txt" >> "$work/repository/crates.txt"
}

# The program main.rt.txt beside the script, with its proofs where it has some (proofs/FUNCTION/FILE.antt.txt): build_timed DEPENDENCIES.
# The command READY of the environment, where there is one, is run once all is built, before anything is timed.
build_timed() {
    local program="$work/repository/crates/timed" proof name
    mkdir -p "$program/src"
    for crate in $(crates_below $1); do copy_crate "$crate"; done
    echo "timed: $1" >> "$work/repository/crates.txt"
    cp "$top/HANDLES" "$work/repository/"
    cp "$here/main.rt.txt" "$program/src/main.rt"
    for proof in "$here"/proofs/*/*.antt.txt; do
        [ -e "$proof" ] || continue
        name="${proof#"$here/"}"
        mkdir -p "$program/$(dirname "$name")"
        cp "$proof" "$program/${name%.txt}"
    done
    (cd "$program" && rt run --cpu x86-64-v3 >"$work/build.log" 2>&1) || [ -x "$program/out/timed" ] || { cat "$work/build.log"; exit 1; }
    timed="$program/out/timed"
    ${READY:-true}
}
