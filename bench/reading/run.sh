#!/usr/bin/env bash
# Times the reading of a series file of 200 MB by `read_series`, and by fread and a copy in C beside it.
here="$(cd "$(dirname "${BASH_SOURCE[0]}")" && pwd)"
source "$here/../scratch.sh"
"$work/baseline" make "$work/data.series"
build_timed "outside series_core series_file real_outside anyhow"
cd "$work"
for round in 1 2 3 4 5; do
    echo "== round $round, C by fread"
    "$work/baseline" read "$work/data.series"
    echo "== round $round, read_series"
    "$timed"
done
