#!/usr/bin/env bash
# Turns a second of 1, 2, 4 and 8 CPUs over 4096 granules: of the first so many turns of a run (1,000,000 unless told, and no more
# than that), less the time of a run that takes none, and of as many that follow. Each time is the best of five runs, by
# processor time. A second word, `realms` or `realm`, times pages mapped in realms of their own or in one for all.
set -euo pipefail
cd "$(dirname "$0")/../crates/bench"
turns=${1:-1000000}
kind=${2:-turns}
rt run -- world turns 1 0 > /dev/null

seconds() {
  local TIMEFORMAT=%U
  { time out/bench world "$kind" "$1" "$2" > /dev/null; } 2>&1
}

best() {
  for _ in 1 2 3 4 5; do seconds "$1" "$2"; done | sort -n | head -n 1
}

for cpus in 1 2 4 8; do
  none=$(best "$cpus" 0)
  first=$(best "$cpus" "$turns")
  all=$(best "$cpus" $((2 * turns)))
  awk -v cpus="$cpus" -v turns="$turns" -v none="$none" -v first="$first" -v all="$all" 'BEGIN {
    printf "CPUs %d: turns a second at first %9.0f, then %9.0f\n", cpus, turns / (first - none), turns / (all - first) }'
done
