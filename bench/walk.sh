#!/usr/bin/env bash
# Nanoseconds a walk from level 0 to level 3, in a realm of 4001 tables: 3200 addresses, each walked so many rounds (1000
# unless told), less the time of a run that walks none. The best of three runs of each, by processor time.
set -euo pipefail
cd "$(dirname "$0")/../crates/bench"
rounds=${1:-1000}
rt run -- walk 1 > /dev/null

seconds() {
  local TIMEFORMAT=%U
  { time out/bench walk "$1" > /dev/null; } 2>&1
}

best() {
  for _ in 1 2 3; do seconds "$1"; done | sort -n | head -n 1
}

none=$(best 0)
all=$(best "$rounds")
awk -v none="$none" -v all="$all" -v rounds="$rounds" \
  'BEGIN { printf "walks of four levels %d, nanoseconds a walk %.1f, seconds without walks %.2f\n", 3200 * rounds, (all - none) / (3200 * rounds) * 1e9, none }'
