#!/usr/bin/env bash
# Times batches of 200 queries over data of several kinds: by the library in one thread, one after another and in groups; by the program, by
# one worker and by four; and by the flat index of faiss in one thread, where python3-faiss is there: run.sh [KIND..]. The kinds are those
# of bench/kinds.
here="$(cd "$(dirname "${BASH_SOURCE[0]}")" && pwd)"
source "$here/../scratch.sh"
build_timed "outside series_core breakpoints segment_sums isax_word subtree_build nearest_answer group_answer anyhow"
gcc -O3 -march=native -o "$work/make_data" "$here/../kinds/make_data.c" -lm
(cd "$top/crates/isearch" && rt run --cpu x86-64-v3 -- nearest data/row1.iser data/row1q.iser >/dev/null)
program="$top/crates/isearch/out/isearch"
python=/usr/bin/python3
"$python" -c 'import faiss' 2>/dev/null || python=

# Prints how many microseconds the program takes with these queries: NAME QUERIES LENGTH K WORKERS.
by_program() {
    local begin end
    begin=$(date +%s%N)
    "$program" nearest "$work/data" "$2" --raw "$3" --k "$4" --breaks bent --leaf 128 --workers "$5" >/dev/null
    end=$(date +%s%N)
    echo "$1: $(((end - begin) / 1000))"
}

# Three rounds over a collection that make_data makes: kind ROWS LENGTH K. From the program's time its time without queries is taken.
kind() {
    "$work/make_data" "$1" "$work/data" "$work/queries" "$2" "$3" 200 ${SOUND:-} ${QUERIES:-}
    : >"$work/none"
    : >"$work/times"
    for round in 1 2 3; do
        "$timed" "$1 $2 x $3" "$work/data" "$work/queries" "$3" "$4" >>"$work/times"
        for workers in 1 4; do
            by_program "none by $workers" "$work/none" "$3" "$4" "$workers" >>"$work/times"
            by_program "all by $workers" "$work/queries" "$3" "$4" "$workers" >>"$work/times"
        done
        [ -z "$python" ] || "$python" "$here/flat.py" "$1 $2 x $3" "$work/data" "$work/queries" "$3" "$4" 1 >>"$work/times"
    done
    # a line is 'name: microseconds', with a checksum in brackets or without
    awk -F'[:(]' -v name="$1 $2 x $3" '{ time = $2 + 0; if (!($1 in least) || time < least[$1]) least[$1] = time }
        END { for (line in least) if (line ~ /,/) printf "%s: %.2f ms a query\n", line, least[line] / 200000
            for (w = 1; w <= 4; w += 3) { own[w] = least["all by " w] - least["none by " w]
                printf "%s, program, workers %d: %.2f ms a query\n", name, w, own[w] / 200000 }
            printf "    four workers are %.2f times as fast\n", own[1] / own[4] }' "$work/times" | sort -r
}

# A kind over two recordings that Debian has.
recorded() {
    "$here/../recordings" "$1" "$work/sound" "$work/asked"
    SOUND="$work/sound" QUERIES="$work/asked" kind "$2" "$3" 256 10
}

[ $# -gt 0 ] || set -- walks resonances shrill tremor noise
for wanted in "$@"; do
    case "$wanted" in
        walks) kind walks 500000 256 10 ;;
        long) kind walks 100000 1024 10 ;;
        resonances) kind resonances 100000 256 10 ;;
        shrill) kind shrill 100000 256 10 ;;
        tremor) kind tremor 100000 256 10 ;;
        noise) kind noise 200000 256 10 ;;
        heart) recorded heart heart 86000 ;;
        music) recorded music sound 400000 ;;
    esac
done
