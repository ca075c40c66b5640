// The scans that the search for the ten nearest is timed against: the same walks, queries and lines.
#include "../search/baseline.c"
