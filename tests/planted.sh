#!/usr/bin/env bash
# Tries the wrong bodies of crates/NAME/planted on a copy of the repository: those of the crates that
# are named, or of all. Prints a line for each, and at the end how many the proofs refuse and how many
# they don't. Beside the gate, which tries must-fail/ alone.
#
#   tests/planted.sh [NAME ..]
set -euo pipefail
cd "$(dirname "$0")/.."
copy=$(mktemp -d)
trap 'rm -rf "$copy"' EXIT
git init -q "$copy"
tar -cf - --exclude='out/incremental' crates crates.txt HANDLES | tar -xf - -C "$copy"
cd "$copy"
names=()
for folder in crates/*/planted; do
  name=$(basename "$(dirname "$folder")")
  rm -rf "crates/$name/must-fail"
  if [ $# -eq 0 ] || [[ " $* " == *" $name "* ]]; then
    mv "$folder" "crates/$name/must-fail"
    names+=("$name")
  fi
done
if [ ${#names[@]} -eq 0 ]; then
  echo "no planted edits" >&2
  exit 2
fi
rt must-fail "${names[@]}" | tee said || true
# (refused only since a proof names what the edit took away: that shows nothing of a contract)
refused=$(grep ': refused, as it must be' said | grep -vc 'only because a proof file names' || true)
total=$(find "${names[@]/#/crates/}" -path '*/must-fail/*.edit' | wc -l)
echo "$refused passed, $((total - refused)) failed"
[ "$refused" -eq "$total" ]
