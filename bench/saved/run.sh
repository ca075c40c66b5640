#!/usr/bin/env bash
# Times saving the tree of 500,000 walks and loading it again, and one reading of all values in C beside it.
here="$(cd "$(dirname "${BASH_SOURCE[0]}")" && pwd)"
"$here/../against_scans.sh" "$here" \
    "outside series_core breakpoints segment_sums isax_word subtree_build saved_index anyhow"
