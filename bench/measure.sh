#!/usr/bin/env bash
# Extensions of a measurement a second, beside OpenSSL's SHA-256 on messages of the same 96 bytes. Each is the best of
# three runs, taken in turn, by processor time.
set -euo pipefail
cd "$(dirname "$0")/../crates/bench"
count=${1:-1000000}
rt run -- measure words 1 > /dev/null

extensions() {
  local seconds TIMEFORMAT=%U
  seconds=$({ time out/bench measure "$1" "$count" > /dev/null; } 2>&1)
  awk -v count="$count" -v seconds="$seconds" 'BEGIN { printf "%.0f\n", count / seconds }'
}

messages() {
  openssl speed -seconds 1 -bytes 96 -evp sha256 2> /dev/null | awk '/^sha256/ { printf "%.0f\n", $2 * 1000 / 96 }'
}

best() {
  sort -n "$1" | tail -n 1
}

results=$(mktemp -d)
trap 'rm -rf "$results"' EXIT
for _ in 1 2 3; do
  extensions bytes >> "$results/bytes"
  extensions words >> "$results/words"
  messages >> "$results/openssl"
done
openssl=$(best "$results/openssl")
printf 'OpenSSL, messages a second       %9d\n' "$openssl"
for kind in bytes words; do
  rate=$(best "$results/$kind")
  ratio=$(awk -v rate="$rate" -v openssl="$openssl" 'BEGIN { printf "%.2f", rate / openssl }')
  printf 'extensions by %s a second     %9d   %s of OpenSSL\n' "$kind" "$rate" "$ratio"
done
