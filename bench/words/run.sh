#!/usr/bin/env bash
# Times the crates' full words and bounds, and the plain C loops beside them.
here="$(cd "$(dirname "${BASH_SOURCE[0]}")" && pwd)"
source "$here/../scratch.sh"
build_timed "breakpoints segment_sums isax_word lower_bound anyhow"
for round in 1 2 3 4 5; do
    echo "== round $round, plain C"
    "$work/baseline"
    echo "== round $round, Rattle"
    "$timed"
done
