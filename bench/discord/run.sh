#!/usr/bin/env bash
# Times the search for discords, and a plain C double loop beside it.
here="$(cd "$(dirname "${BASH_SOURCE[0]}")" && pwd)"
"$here/../against_scans.sh" "$here" \
    "outside series_core breakpoints segment_sums isax_word subtree_build discord_query anyhow"
