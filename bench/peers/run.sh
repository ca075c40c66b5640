#!/usr/bin/env bash
# Times what Debian has for the same task, our own scans and isearch on the same data, one thread each, and prints a table: run.sh [KIND..].
# Its one rule: the programs run in turn, three times, and of each line the least time of the processor counts. In the environment:
# ISEARCH, the program (where absent, crates/isearch/out/isearch of this checkout); ROUNDS in place of 3; PEERS, of peers.py,
# in place of all; PART, of which only one row in so many is taken (where absent, 1).
set -eu
here="$(cd "$(dirname "${BASH_SOURCE[0]}")" && pwd)"
isearch="$(realpath "${ISEARCH:-$here/../../crates/isearch/out/isearch}")"
[ -x "$isearch" ] || { echo "run.sh: $isearch: no program; ISEARCH names one" >&2; exit 1; }
part="${PART:-1}"
work="$(mktemp -d)"
trap 'rm -rf "$work"' EXIT
cd "$work"

built() {
    local length segments
    gcc -O3 -march=native -o make_data "$here/../kinds/make_data.c" -lm
    for length in 8 256 1024; do
        segments=$((length < 16 ? length : 16))
        gcc -O3 -march=native "-DPOINTS=$length" -o "scans$length" "$here/scans.c"
        g++ -O3 -march=native "-DPOINTS=$length" "-DSEGMENTS=$segments" -o "near$length" "$here/near.cpp"
    done
}

# How many queries of the file `answers` have other distances than in `truth`, which has isearch's answers. Of two as near either will do.
compared() {
    awk '
        function weigh() { if (asked != "") { count++; wrong += text != right[asked] } }
        FNR == NR { if ($1 == "query") at = $2; else right[at] = right[at] " " $3; next }
        $1 == "query" { weigh(); asked = $2; text = ""; next }
        { text = text " " $3 }
        END { weigh(); print (wrong ? wrong " of " count " differ" : "same, " count " queries") }' truth answers
}

# Runs a program that prints lines 'what: microseconds', and keeps them with how its answers compare.
kept() {
    local lines
    rm -f answers
    lines="$("$@")"
    awk -v note="$(compared)" -F': ' '{ print $1 "|" $2 "|" ($1 ~ /build/ ? "" : note) }' <<<"$lines" >>times
}

# Prints how many microseconds of the processor isearch takes over a file of queries: searched QUERIES LENGTH K.
searched() {
    local TIMEFORMAT="%U %S"
    { time "$isearch" nearest data "$1" --raw "$2" --k "$3" --workers 1 --breaks bent --leaf 128 >found; } 2>took
    awk '{ printf "%.0f\n", ($1 + $2) * 1e6 }' took
}

# A run without queries reads the file and builds the tree; what a run with queries takes more is the searches'.
own() {
    local length="$1" k="$2" none all count
    count=$(($(wc -c <often) / (2 * length)))
    none=$(searched nothing "$length" "$k")
    all=$(searched often "$length" "$k")
    echo "isearch, reading and build|$none|" >>times
    awk -v more=$((all - none)) -v count="$count" 'BEGIN { printf "isearch|%.1f|exact, %d queries\n", more / count, count }' >>times
}

# Three rounds over a kind of data: kind NAME ROWS LENGTH K [SOUND QUERIES].
kind() {
    local name="$1" length="$3" k="$4" rows=$(($2 / part)) round peer spent
    ./make_data "$name" data queries "$rows" "$length" 200 "${@:5}"
    rows=$(($(wc -c <data) / (2 * length)))
    : >nothing
    spent=$(searched queries "$length" "$k")
    mv found truth
    # queries that take little time are asked five times over
    for round in 1 2 3 4 5; do [ "$round" -gt 1 ] && [ "$spent" -gt 3000000 ] || cat queries; done >often
    : >times
    for ((round = 0; round < ${ROUNDS:-3}; round++)); do
        own "$length" "$k"
        kept "./scans$length" data queries "$k" 1 20 200
        kept "./near$length" data queries "$k"
        for peer in ${PEERS-flat1 flat20 flat200 kdtree balltree}; do kept /usr/bin/python3 "$here/peers.py" data queries "$length" "$k" "$peer"; done
    done
    table "$name, $rows of $length" <times
}

# The rows of a kind, each with its least time as a multiple of that of a query by isearch.
table() {
    awk -v name="$1" -F'|' '
        { if (!($1 in least) || $2 + 0 < least[$1]) least[$1] = $2 + 0; note[$1] = $3; if (!seen[$1]++) order[++count] = $1 }
        END { for (i = 1; i <= count; i++) printf "| %s | %s | %.2f | %s |\n", name, order[i], least[order[i]] / least["isearch"], note[order[i]] }'
}

wanted() {
    case "$1" in
        walks) kind walks 500000 256 10 ;;
        long) kind walks 100000 1024 10 ;;
        resonances) kind resonances 100000 256 10 ;;
        shrill) kind shrill 100000 256 10 ;;
        tremor) kind tremor 100000 256 10 ;;
        noise) kind noise 200000 256 10 ;;
        level) kind level 100000 256 10 ;;
        short) kind walks 2000000 8 10 ;;
        heart | music)
            "$here/../recordings" "$1" sound asked
            kind "$([ "$1" = music ] && echo sound || echo heart)" "$([ "$1" = music ] && echo 400000 || echo 86000)" 256 10 sound asked
            ;;
        *)
            echo "run.sh: no kind $1" >&2
            exit 2
            ;;
    esac
}

[ $# -gt 0 ] || set -- walks long music heart tremor resonances shrill noise level short
built
echo "$(date +%F), $(nproc) processors, $(sed -n 's/^model name[^:]*: //p' /proc/cpuinfo | head -1), one thread each"
echo
echo "| data | what | times as long as a query by isearch | answers |"
echo "|---|---|---|---|"
for name in "$@"; do wanted "$name"; done
