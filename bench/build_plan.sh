#!/usr/bin/env bash
# Times `build` on the largest configuration that is accepted: as many of all that is counted as there
# may be (`ring-of-64` of check_shapes.py), and a chain of 64 participants. README.md here says how to
# read the table.
#
# The program that builds plans is written below, proved and built in a temporary folder.
set -euo pipefail
here=$(dirname "$(readlink -f "${BASH_SOURCE[0]}")")
top=$(dirname "$here")
times=${1:-200}

room=$(mktemp -d)
trap 'rm -rf "$room"' EXIT
mkdir -p "$room/crates" "$room/shapes"
names=(fixed_num line_text plan_order cpl_plan cpl_tables cpl_rules cpl_config mesh_rules config_rules
    config_laws scheme_parts plan_build)
for name in "${names[@]}"; do
    cp -r "$top/crates/$name" "$room/crates"
    grep -E "^$name:" "$top/crates.txt"
done >"$room/crates.txt"
echo 'plans_built: fixed_num cpl_plan cpl_config config_rules plan_build anyhow' >>"$room/crates.txt"
git init -q "$room"
crate=$room/crates/plans_built
mkdir -p "$crate/src"
python3 "$here/check_shapes.py" make "$room/shapes"

cat >"$crate/src/main.rt" <<'END'
//! Reads and checks the file of the second word, builds its plan as often as the first word says, and
//! prints how many participants the last plan has.
#![tactic(auto)]

ghost use Rattle.cpl_config.specs.SoundConfig.{IsSoundConfig};
ghost use Rattle.config_rules.specs.ConfigRules.{IsAccepted};

use anyhow::{Result, anyhow};
use config_rules::check_config;
use cpl_config::{Config, read_config};
use fixed_num::Memory;
use plan_build::build;
use std::alloc::Global;
use std::env;
use std::fs;

fn build_often(alloc: Global, config: &Config, times: u32) -> Result<u32, Memory>
    requires sound { IsSoundConfig config.now }
    requires accepted { IsAccepted config.now }
{
    let mut participants = 0;
    for _time in 0..times {
        let plan = build(alloc, config)?;
        participants = plan.part_count();
    }
    Ok(participants)
}

fn main(rt: HostRuntime) -> anyhow::Result<()> {
    let mut words = env::args(&rt)?;
    let (Some(times), Some(file)) = (words.nth(1), words.next()) else {
        return Err(anyhow!("usage: plans_built <times> <file>"));
    };
    let times = times.parse::<u32>()?;
    let text = fs::read_to_string(&rt, file.as_str())?;
    let Ok(config) = read_config(rt.alloc(), text.as_bytes()) else {
        return Err(anyhow!("the configuration is not read"));
    };
    let Ok(()) = check_config(rt.alloc(), &config) else {
        return Err(anyhow!("the configuration is not accepted"));
    };
    let Ok(participants) = build_often(rt.alloc(), &config, times) else {
        return Err(anyhow!("out of memory"));
    };
    println!(&rt; "{participants}")?;
    Ok(())
}
END

if ! (cd "$crate" && rt run -- 1 "$room/shapes/ring-of-64/config.toml" </dev/null >/dev/null 2>"$room/build.log"); then
    cat "$room/build.log" >&2
    exit 1
fi
program=$crate/out/plans_built
rustc --edition 2021 -O --out-dir "$room" "$here/measure.rs"

TIMEFORMAT=%U

# processor seconds of a run, the least of nine
least() { # program and its words..
    for _ in 1 2 3 4 5 6 7 8 9; do
        { time "$@" >/dev/null; } 2>&1
    done | sort -g | head -n 1
}

printf '%-12s %8s %9s %8s | %9s %8s\n' shape bytes 'read s' KiB 'ms/plan' KiB
for shape in ring-of-64 chain-of-64; do
    file=$room/shapes/$shape/config.toml
    if [ "$("$program" 1 "$file")" != 64 ]; then
        echo "build_plan: $shape has no plan of 64 participants" >&2
        exit 1
    fi
    start=$(least "$program" 0 "$file")
    seconds=$(least "$program" "$times" "$file")
    read -r _ room_before < <("$room/measure" 3 "$program" 0 "$file")
    read -r _ room_after < <("$room/measure" 3 "$program" 1 "$file")
    awk -v shape="$shape" -v bytes="$(wc -c <"$file")" -v s0="$start" -v m0="$room_before" -v n="$times" \
        -v s="$seconds" -v m="$room_after" 'BEGIN {
            printf "%-12s %8d %9.4f %8d | %9.4f %8d\n", shape, bytes, s0, m0, (s - s0) / n * 1e3, m - m0
        }'
done
