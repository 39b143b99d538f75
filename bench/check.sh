#!/usr/bin/env bash
# Times `coupling check` on configurations of nearly a mebibyte, on long case files, and on a long chain
# of participants, beside Python's tomllib, which only reads the same files. README.md here says how to
# read the table.
set -euo pipefail
here=$(dirname "$(readlink -f "${BASH_SOURCE[0]}")")
top=$(dirname "$here")
room=$(mktemp -d)
trap 'rm -rf "$room"' EXIT

# The program is built by its first call.
(cd "$top/examples/base" && "$top/coupling" check ab.toml >/dev/null)
program=$top/crates/coupling_run/out/coupling_run
rustc --edition 2021 -O --out-dir "$room" "$here/measure.rs"
mkdir "$room/shapes"
python3 "$here/check_shapes.py" make "$room/shapes"

printf '%-18s %8s %9s %8s %9s %7s  %s\n' shape bytes 'check s' KiB 'tomllib s' ratio answer
for folder in "$room"/shapes/*/; do
    cd "$folder"
    answer=$("$program" check config.toml || true)
    read -r seconds memory < <("$room/measure" 3 "$program" check config.toml)
    plain=$(python3 "$here/check_shapes.py" read ./*.toml)
    ratio=$(python3 -c "print(f'{$seconds / $plain:.2f}')")
    bytes=$(cat ./*.toml | wc -c)
    printf '%-18s %8d %9.4f %8s %9.4f %7s  %s\n' "$(basename "$folder")" "$bytes" "$seconds" "$memory" "$plain" "$ratio" "$answer"
done
