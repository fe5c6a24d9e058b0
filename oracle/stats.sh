#!/bin/sh
# Counts of lines by name and number in the outputs of a directory of sessions.
# stats.sh DIR
cat "$1"/*.out | awk '
  $1 == "bad" { key = $1 " " $3 }
  $1 == "range" { key = $1 " fully_read=" $7 }
  $1 == "free" { key = $1 ($2 > 0 ? " above 0" : " 0") }
  $1 ~ /^(add|end|answer|at_ct|count)$/ { key = $1 }
  $1 !~ /^(bad|range|free|add|end|answer|at_ct|count)$/ { key = $1 " " $2 }
  { seen[key]++ }
  END { for (key in seen) print seen[key], key }' | sort -k2
echo "sessions with an add line: $(grep -l '^add' "$1"/*.out | wc -l) of $(ls "$1"/*.out | wc -l)"
