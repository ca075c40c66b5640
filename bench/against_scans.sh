#!/usr/bin/env bash
# Times a Rattle program over some crates against the plain C scans beside it: against_scans.sh FOLDER DEPENDENCIES.
# The program is proved and built in a scratch repository outside; both run in turn, three times, and of each line the
# least time is printed.
here="$1"
source "$(dirname "${BASH_SOURCE[0]}")/scratch.sh"
build_timed "$2"
for round in 1 2 3; do
    "$work/baseline" >>"$work/times"
    "$timed" >>"$work/times"
done
# a line is 'name: microseconds (checksum)'
awk -F'[:(]' '{ time = $2 + 0; if (!($1 in least) || time < least[$1]) least[$1] = time; checks[$1] = $3 }
    END { for (line in least) print line ": " least[line] " (" checks[line] }' "$work/times" | sort
