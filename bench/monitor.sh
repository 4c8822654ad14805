#!/usr/bin/env bash
# Commands a second that a monitor executes for 1, 2 and 4 CPUs on threads of their own, over granules of their own and over
# granules that they share, and with pages in realms of their own and in one for all; and the same commands with one lock around
# each. Each is the best of three runs of so many rounds (30 unless told), by the clock.
set -euo pipefail
cd "$(dirname "$0")/../crates/bench"
rounds=${1:-30}
rt run -- monitor time own many 1 0 > /dev/null

rate() {
  out/bench monitor time "$1" "$2" "$3" "$rounds" | awk '{ printf "%.0f\n", $1 / $2 * 1e9 }'
}

best() {
  for _ in 1 2 3; do rate "$1" "$2" "$3"; done | sort -n | tail -n 1
}

for granules in own shared realms realm; do
  for cpus in 1 2 4; do
    many=$(best "$granules" many "$cpus")
    one=$(best "$granules" one "$cpus")
    ratio=$(awk -v many="$many" -v one="$one" 'BEGIN { printf "%.2f", many / one }')
    printf '%-6s CPUs %d: commands a second %9d, behind one lock %9d, ratio %s\n' \
      "$granules" "$cpus" "$many" "$one" "$ratio"
  done
done
