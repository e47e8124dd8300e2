#!/usr/bin/env bash
# Runs the second program on all cases and compares its lines with those of crate compare. Where they differ it prints the first case that does.
set -euo pipefail
here=$(cd "$(dirname "${BASH_SOURCE[0]}")" && pwd)
theirs=$here/../crates/compare/stdout

if [ ! -f "$theirs" ]; then
  echo "compare.sh: crates/compare/stdout does not exist" >&2
  exit 1
fi
cargo build --release --offline --quiet --manifest-path "$here/Cargo.toml" --target-dir "$here/target"
second=$here/target/release/second

ours=$(mktemp)
trap 'rm -f "$ours"' EXIT
"$second" >"$ours"

if cmp -s "$ours" "$theirs"; then
  echo "second: $(wc -l <"$ours") batches, the same as in crates/compare/stdout"
  exit 0
fi

# The first batch whose lines differ, and in it the first pair of letters that does.
case=$(awk -F, 'NR == FNR { ours[FNR] = $0; next }
  $0 != ours[FNR] {
    split(ours[FNR], own, ",")
    i = 0
    while (i < 49 && substr($2, 2 * i + 1, 2) == substr(own[2], 2 * i + 1, 2)) i++
    print (FNR - 1) * 50 + i
    found = 1
    exit
  }
  END { if (!found) print FNR * 50 }' "$ours" "$theirs")
line=$((case / 50 + 1))
{
  echo "second: the first case that differs is $case"
  echo "second:  $(sed -n "${line}p" "$ours")"
  echo "compare: $(sed -n "${line}p" "$theirs")"
  echo "The case, and what second says of it:"
  "$second" --drawn "$case"
  "$second" "$case"
} | cut -c 1-1000 >&2
exit 1
