#!/usr/bin/env bash
# Times whole runs of the program, from its start to its end, and beside it `cat`, a program in C that reads and scans, and faiss, and prints
# one table: run.sh [KIND..]. Its one rule: the programs run in turn, three times, and of each line the least time counts. In the
# environment: ISEARCH, the program (where absent, crates/isearch/out/isearch of this checkout), and OLD, one of before to be timed beside
# it; ROUNDS in place of 3; PART, of which only one row in so many is taken (where absent, 1); COUNTS, of queries, in place of 1 20 200.
set -eu
here="$(cd "$(dirname "${BASH_SOURCE[0]}")" && pwd)"
isearch="$(realpath "${ISEARCH:-$here/../../crates/isearch/out/isearch}")"
[ -x "$isearch" ] || { echo "run.sh: $isearch: no program; ISEARCH names one" >&2; exit 1; }
old="${OLD:+$(realpath "$OLD")}"
part="${PART:-1}"
work="$(mktemp -d)"
trap 'rm -rf "$work"' EXIT
cd "$work"
python=/usr/bin/python3
"$python" -c 'import faiss' 2>/dev/null || python=
large=GLIBC_TUNABLES=glibc.malloc.hugetlb=1
gcc -O3 -march=native -o make_data "$here/../kinds/make_data.c" -lm
gcc -O2 -Wall -shared -fPIC -o between.so "$here/between.c"
for length in 8 256; do gcc -O3 -march=native "-DPOINTS=$length" -o "scan$length" "$here/scan.c"; done

# Runs a program and keeps a line 'what|microseconds|kilobytes at the most|microseconds from its last read to its first text': timed WHAT
# PROGRAM WORD..
timed() {
    local begin end what="$1"
    shift
    rm -f between
    begin=$(date +%s%N)
    /usr/bin/time -v -o took env LD_PRELOAD="$work/between.so" BETWEEN=between "$@" >answer
    end=$(date +%s%N)
    echo "$what|$(((end - begin) / 1000))|$(awk '/Maximum resident/ { print $NF }' took)|$(head -1 between 2>/dev/null || echo 0)" >>times
}

# One round of all programs with one number of queries: round LENGTH.
round() {
    local workers
    local words=(nearest data queries --raw "$1" --k 10)
    local tree=(--breaks bent --leaf 128)
    timed "cat" cat data
    timed "C" "./scan$1" data queries 10
    timed "C, pages of 4 KB" env SMALL_PAGES=1 "./scan$1" data queries 10
    for workers in 1 4; do
        timed "isearch, workers $workers" "$isearch" "${words[@]}" "${tree[@]}" --workers "$workers"
        [ -z "$old" ] || timed "before, workers $workers" "$old" "${words[@]}" "${tree[@]}" --workers "$workers"
        timed "isearch, workers $workers, large pages" env "$large" "$isearch" "${words[@]}" "${tree[@]}" --workers "$workers"
        timed "isearch --index, workers $workers" "$isearch" "${words[@]}" --index data.index --workers "$workers"
        [ -z "$old" ] || timed "before --index, workers $workers" "$old" "${words[@]}" --index data.index --workers "$workers"
        timed "isearch --certificate, workers $workers" "$isearch" "${words[@]}" "${tree[@]}" --certificate --workers "$workers"
        [ -z "$python" ] || timed "faiss flat, threads $workers" "$python" "$here/flat.py" data queries "$1" 10 "$workers"
    done
}

# The lines of a kind with so many queries, each with its least time as a multiple of that of C, and with the least one from the last read to
# the first text as a multiple of that of building by as many workers: table NAME QUERIES.
table() {
    awk -v name="$1" -v queries="$2" -F'|' '
        { if (!($1 in least) || $2 + 0 < least[$1]) least[$1] = $2 + 0; if ($3 + 0 > most[$1]) most[$1] = $3 + 0; if (!seen[$1]++) order[++count] = $1
          if (!($1 in behind) || $4 + 0 < behind[$1]) behind[$1] = $4 + 0 }
        function share(what, built) {
            built = "isearch, workers " substr(what, match(what, /workers [0-9]+/) + 8, 1)
            return what ~ /workers/ && behind[built] ? sprintf("%.2f", behind[what] / behind[built]) : "-"
        }
        END { for (i = 1; i <= count; i++) printf "| %s | %s | %s | %.2f | %s | %.0f |\n", name, queries, order[i], least[order[i]] / least["C"], share(order[i]), most[order[i]] / 1024 }' times
}

# Rounds over a kind of data: kind NAME ROWS LENGTH.
kind() {
    local count rows=$(($2 / part)) i
    ./make_data "$1" data all "$rows" "$3" 200
    "$isearch" save data --raw "$3" --breaks bent --leaf 128 >data.index
    cat data data.index >/dev/null
    for count in ${COUNTS:-1 20 200}; do
        head -c $((2 * count * $3)) all >queries
        : >times
        for ((i = 0; i < ${ROUNDS:-3}; i++)); do round "$3"; done
        table "$1, $rows of $3" "$count"
    done
}

[ $# -gt 0 ] || set -- walks resonances short
echo "$(date +%F), $(nproc) processors, $(sed -n 's/^model name[^:]*: //p' /proc/cpuinfo | head -1)"
echo
echo "| data | queries | what | times as long as C | behind the reading, times as long as building | MB at the most |"
echo "|---|---|---|---|---|---|"
for wanted in "$@"; do
    case "$wanted" in
        walks) kind walks 500000 256 ;;
        resonances) kind resonances 100000 256 ;;
        short) kind walks 16777216 8 ;;
        *)
            echo "run.sh: no kind $wanted" >&2
            exit 2
            ;;
    esac
done
