#!/usr/bin/env bash
# Times printing, reading and checking certificates of the ten nearest, and plain C scans beside it.
here="$(cd "$(dirname "${BASH_SOURCE[0]}")" && pwd)"
"$here/../against_scans.sh" "$here" \
    "outside series_core breakpoints segment_sums isax_word subtree_build nearest_answer query_core certificate itoa anyhow"
