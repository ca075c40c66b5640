#!/usr/bin/env bash
# Times the distance within a limit, and the plain C loops beside it. Prints the least time of each line.
here="$(cd "$(dirname "${BASH_SOURCE[0]}")" && pwd)"
source "$here/../scratch.sh"
build_timed "outside series_core simd_distance anyhow"
for round in 1 2 3 4 5; do
    "$work/baseline" >>"$work/times"
    "$timed" >>"$work/times"
done
# a line is 'name, rows of points, limit: microseconds (checksum)'
awk -F'[:(]' '{ time = $2 + 0; if (!($1 in least) || time < least[$1]) least[$1] = time; checks[$1] = $3 }
    END { for (line in least) print line ": " least[line] " (" checks[line] }' "$work/times" | sort -t, -k2,3
