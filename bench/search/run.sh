#!/usr/bin/env bash
# Times the search for the ten nearest, and plain C scans beside it.
here="$(cd "$(dirname "${BASH_SOURCE[0]}")" && pwd)"
"$here/../against_scans.sh" "$here" \
    "outside series_core breakpoints segment_sums isax_word subtree_build nearest_answer query_core live_query anyhow"
