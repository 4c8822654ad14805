#!/usr/bin/env bash
# Events a second from 1, 2 and 4 producers into one history, through the event queue and through a deque behind a lock. Each
# is the best of three runs of so many rounds (30 unless told), by the clock.
set -euo pipefail
cd "$(dirname "$0")/../crates/bench"
rounds=${1:-30}
rt run -- queue queue 2 0 > /dev/null

rate() {
  out/bench queue "$1" "$2" "$rounds" | awk '{ printf "%.0f\n", $1 / $2 * 1e9 }'
}

best() {
  for _ in 1 2 3; do rate "$1" "$2"; done | sort -n | tail -n 1
}

for producers in 1 2 4; do
  queue=$(best queue "$producers")
  mutex=$(best mutex "$producers")
  ratio=$(awk -v queue="$queue" -v mutex="$mutex" 'BEGIN { printf "%.2f", queue / mutex }')
  printf 'producers %d: events a second through the queue %9d, behind a lock %9d, ratio %s\n' "$producers" "$queue" "$mutex" "$ratio"
done
