#!/bin/sh
# Runs a directory of sessions through oracle and model and tells where they part.
# compare.sh DIR [-x] [--doc-open-limit]
here=$(dirname "$0")
dir=$1
shift
beyond=
for option in "$@"; do
  [ "$option" = -x ] && beyond=-x
done
find "$dir" -name '*.bin' | sort | xargs "$here/target/release/oracle" $beyond || exit 1
find "$dir" -name '*.bin' | sort | xargs python3 "$here/gen/model.py" "$@" || exit 1
all=0
differ=0
for session in "$dir"/*.bin; do
  all=$((all + 1))
  cmp -s "$session.out" "$session.model" && continue
  differ=$((differ + 1))
  [ $differ -le 10 ] && echo "differs: $session"
done
echo "$all sessions, $differ differ"
[ $differ -eq 0 ]
