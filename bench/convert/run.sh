#!/usr/bin/env bash
# Times the writing of a series file of 200 MB as one of version 2, by the steps of `convert`, and in C beside it.
here="$(cd "$(dirname "${BASH_SOURCE[0]}")" && pwd)"
source "$here/../scratch.sh"
gcc -O3 -march=native -o "$work/maker" "$here/../reading/baseline.c"
"$work/maker" make "$work/data.series"
build_timed "outside series_core series_file real_outside"
cd "$work"

# Prints how many milliseconds a program takes that writes to a file.
milliseconds() {
    local name="$1" begin end
    shift
    begin=$(date +%s%N)
    "$@" >"$work/$name.series"
    end=$(date +%s%N)
    echo "$name: $(((end - begin) / 1000000)) ms"
}

for round in 1 2 3 4 5; do
    echo "== round $round"
    milliseconds c "$work/baseline" "$work/data.series"
    milliseconds rattle "$timed"
    cmp "$work/c.series" "$work/rattle.series"
done
