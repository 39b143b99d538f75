#!/usr/bin/env bash
# Times `coupling solo` at 10^4, 10^5 and 10^6 windows of the example, beside a plain loop in stock
# Rust (plain_loop.rs) in the same run. README.md here says how to read the table.
set -euo pipefail
here=$(dirname "$(readlink -f "${BASH_SOURCE[0]}")")
top=$(dirname "$here")
program=$top/crates/coupling_run/out/coupling_run

# without words it ends with the usage line and status 2; what counts is that it is built then
"$top/coupling" >/dev/null || [ $? -eq 2 ]

room=$(mktemp -d)
trap 'rm -rf "$room"' EXIT
cp "$top"/examples/base/{a,b}.toml "$room"
for windows in 1 10000 100000 1000000; do
    sed "s/^max-windows = .*/max-windows = $windows/" "$top/examples/base/ab.toml" >"$room/$windows.toml"
done
for source in plain_loop measure; do
    rustc --edition 2021 -O -o "$room/$source" "$here/$source.rs"
done
cd "$room"

# seconds and KiB of the program and of the plain loop at so many windows, as four words
measured() { # times windows
    echo "$(./measure "$1" "$program" solo "$2.toml") $(./measure "$1" ./plain_loop "$2")"
}

read -r start _ plain_start _ <<<"$(measured 20 1)"
echo "one window, which is start-up and reading: program $start s, plain loop $plain_start s"
printf '%8s | %9s %9s %7s | %9s %9s %7s | %5s\n' \
    windows 'program s' us/window KiB 'plain s' us/window KiB ratio
for windows in 10000 100000 1000000; do
    if ! cmp -s <("$program" solo "$windows.toml") <(./plain_loop "$windows"); then
        echo "first_path: the two reports differ at $windows windows" >&2
        exit 1
    fi
    read -r seconds memory plain_seconds plain_memory <<<"$(measured 3 "$windows")"
    awk -v n="$windows" -v s="$seconds" -v m="$memory" -v p="$plain_seconds" -v q="$plain_memory" \
        -v s0="$start" -v p0="$plain_start" 'BEGIN {
            each = (s - s0) / (n - 1) * 1e6
            plain = (p - p0) / (n - 1) * 1e6
            ratio = plain > 0 ? sprintf("%.2f", each / plain) : "-"
            printf "%8d | %9.4f %9.4f %7d | %9.4f %9.4f %7d | %5s\n", n, s, each, m, p, plain, q, ratio
        }'
done
