#!/usr/bin/env bash
# Times searches by one worker over data of several kinds, and plain C scans beside it: run.sh [KIND..]. The kind `sound` wants
# SOUND and QUERIES in the environment, two files of 16-bit values, low byte first; `heart` and `music` take theirs from `recordings`.
here="$(cd "$(dirname "${BASH_SOURCE[0]}")" && pwd)"
source "$here/../scratch.sh"
build_timed "outside series_core breakpoints segment_sums isax_word subtree_build nearest_answer query_core anyhow"
gcc -O3 -march=native -o "$work/make_data" "$here/make_data.c" -lm
for length in 8 1024; do
    gcc -O3 -march=native "-DPOINTS=$length" -o "$work/baseline$length" "$here/baseline.c"
done
cp "$work/baseline" "$work/baseline256"

# Three rounds over a collection that make_data makes: kind ROWS LENGTH QUERIES K.
kind() {
    "$work/make_data" "$1" "$work/data" "$work/queries" "$2" "$3" "$4" ${SOUND:-} ${QUERIES:-}
    : >"$work/times"
    for round in 1 2 3; do
        "$work/baseline$3" "$1 $2 x $3" "$work/data" "$work/queries" "$5" >>"$work/times"
        "$timed" "$1 $2 x $3" "$work/data" "$work/queries" "$3" "$5" >>"$work/times"
    done
    # a line is 'name: microseconds (checksum)'
    awk -F'[:(]' '{ time = $2 + 0; if (!($1 in least) || time < least[$1]) least[$1] = time; checks[$1] = $3 }
        END { for (line in least) { print line ": " least[line] " (" checks[line];
            if (line ~ /search$/) own = least[line]; else if (line ~ /shared by 4$/) four = least[line]; else if (line !~ /(build|outcome|shared by 64)$/ && (!best || least[line] < best)) best = least[line] }
            printf "    the best scan takes %.2f times as long\n    one worker takes %.2f times as long as four\n", best / own, own / four }' "$work/times" | sort -r
}

# A kind over two recordings that Debian has: recorded heart|music KIND ROWS.
recorded() {
    "$here/../recordings" "$1" "$work/sound" "$work/asked"
    SOUND="$work/sound" QUERIES="$work/asked" kind "$2" "$3" 256 20 10
}

[ $# -gt 0 ] || set -- walks long members resonances shrill tremor noise short ${SOUND:+sound}
for wanted in "$@"; do
    case "$wanted" in
        walks) kind walks 500000 256 20 10 ;;
        walks100) kind walks 500000 256 20 100 ;;
        walks1000) kind walks 500000 256 20 1000 ;;
        long) kind walks 100000 1024 20 10 ;;
        members) kind members 500000 256 100 1 ;;
        resonances) kind resonances 100000 256 20 10 ;;
        shrill) kind shrill 100000 256 20 10 ;;
        tremor) kind tremor 100000 256 20 10 ;;
        heart) recorded heart heart 86000 ;;
        music) recorded music sound 400000 ;;
        sound) kind sound 400000 256 20 10 ;;
        noise) kind noise 200000 256 10 10 ;;
        short) kind walks 16777216 8 20 10 ;;
    esac
done
