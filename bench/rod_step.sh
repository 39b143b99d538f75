#!/usr/bin/env bash
# Times a step of the built rod of 60,000 components, which reads and writes them all, beside a plain
# loop in stock Rust (rod_loop.rs) in the same run. README.md here says how to read the table.
#
# The program that steps the rod is written below, proved and built in a temporary folder.
set -euo pipefail
here=$(dirname "$(readlink -f "${BASH_SOURCE[0]}")")
top=$(dirname "$here")
steps=${1:-301}

room=$(mktemp -d)
trap 'rm -rf "$room"' EXIT
mkdir -p "$room/crates"
cp -r "$top"/crates/{fixed_num,solver_trait,line_solvers} "$room/crates"
{
    grep -E '^(fixed_num|solver_trait|line_solvers):' "$top/crates.txt"
    echo 'rod_steps: fixed_num solver_trait line_solvers anyhow'
} >"$room/crates.txt"
git init -q "$room"
crate=$room/crates/rod_steps
mkdir -p "$crate/src" "$crate/proofs/"{rod,inputs,run}

cat >"$crate/src/main.rt" <<'END'
//! Steps a rod of 60,000 components as often as the first word says, and prints three of them.
#![tactic(auto)]

ghost use Rattle.std.specs.Prelude.{◌≡◌, ◌≤◌, length, vec_len, All, IfOk};
ghost use Rattle.fixed_num.specs.Numbers.{IsValue};
ghost use Rattle.line_solvers.specs.LineMeaning.{line_behaviour};
ghost use Rattle.line_solvers.specs.LineSolver.{spec_of};

use anyhow::{Result, anyhow};
use fixed_num::Memory;
use line_solvers::{CaseParts, LineSolver, ReadWhen, SolverKind};
use solver_trait::{Solver, StepErr};
use std::alloc::Global;
use std::env;

const COUNT: u32 = 60_000;

fn rod(alloc: Global, count: u32) -> Result<LineSolver, Memory>
    requires some { 1 ≤ count }
    requires few { count ≤ 60000 }
{
    let case = CaseParts {
        solver: SolverKind::Rod,
        step: 1000,
        read: ReadWhen::End,
        state: None,
        fill: Some(80_000_000),
        count: Some(i64::from(count)),
        out: None,
        forbid: None,
        row: None,
        alpha: 1_000,
        beta: 2_000,
        stiff: 0,
        damp: 0,
        gain: 0,
        rate: 0,
        reads: count,
        writes: count,
    };
    LineSolver::from_case(alloc, &case)
}

/// Inputs that go up and down along the rod.
fn inputs(alloc: Global, count: u32) -> Result<Vec<i64>, Memory>
    ensures count { IfOk result (λ made. vec_len made ≡ count) }
    ensures values { IfOk result (λ made. All IsValue made.items) }
{
    let mut made = Vec::with_capacity(alloc, count as usize)?;
    for i in 0..count {
        made.push(i64::from(i % 1000) * 1_000_000)?;
    }
    Ok(made)
}

fn run(rod: &mut LineSolver, steps: u32, reads: &[i64], writes: &mut [i64]) -> Result<(), StepErr>
    requires read_len { length reads.now ≡ (line_behaviour (spec_of rod.old)).read_len }
    requires write_len { length writes.old ≡ (line_behaviour (spec_of rod.old)).write_len }
    requires inputs { All IsValue reads.now }
{
    for _step in 0..steps {
        rod.step(25, reads, writes)?;
    }
    Ok(())
}

fn main(rt: HostRuntime) -> anyhow::Result<()> {
    let Some(word) = env::args(&rt)?.nth(1) else {
        return Err(anyhow!("usage: rod_steps <steps>"));
    };
    let steps = word.parse::<u32>()?;
    let Ok(mut rod) = rod(rt.alloc(), COUNT) else {
        return Err(anyhow!("out of memory"));
    };
    let Ok(reads) = inputs(rt.alloc(), COUNT) else {
        return Err(anyhow!("out of memory"));
    };
    let mut writes = vec![in rt.alloc(); 0; COUNT as usize]?;
    if rod.read_len() != reads.len() || rod.write_len() != writes.len() {
        return Err(anyhow!("another rod was made"));
    }
    if run(&mut rod, steps, &reads, &mut writes).is_err() {
        return Err(anyhow!("the rod faults"));
    }
    println!(&rt; "{} {} {}", writes[0], writes[30_000], writes[59_999])?;
    Ok(())
}
END

cat >"$crate/proofs/rod/Answers.antt" <<'END'
use Rattle.std.proofs.Common.{◌≡◌, ◌+◌, ◌<◌, ◌||◌, rules, true, ℕ, ℤ, List, pos, get_or, replicate, length, unsigned_abs, All, arith, eq-eqb, refl, ap, ◌∙◌}
use mir.Syntax.{w64}
use mir.Val.{to_z, of_z}
use Rattle.std.proofs.lemmas.Int.{to_z-of_z}
use Rattle.std.specs.Prelude.{◌==◌}
use Rattle.std.specs.List.{range_with_len}
use Rattle.std.proofs.lemmas.Bool.Decides.{nat_tests}
use Rattle.std.proofs.lemmas.List.{length-replicate}
use Rattle.std.proofs.lemmas.List.FromFn.{length-range_with_len, get_or-range_with_len}
use Rattle.rod_steps.proofs.rod.Goals as goal

many : (count : ℕ) (z fill : ℤ) → z ≡ pos count → length (replicate (unsigned_abs z) fill) ≡ count
many count z fill is = length-replicate (unsigned_abs z) fill ∙ ap (λ (x : ℤ). unsigned_abs x) is

in_range : (count : ℕ) (z fill : ℤ) → z ≡ pos count → All (λ place. place < length (replicate (unsigned_abs z) fill)) (range_with_len 0 count)
in_range count z fill is k d h =
    let n : length (replicate (unsigned_abs z) fill) ≡ count = many count z fill is in
    let r : length (range_with_len 0 count) ≡ count = length-range_with_len 0 count in
    let here : k < count = omega (arith, h, r) in
    let place : get_or (range_with_len 0 count) k d ≡ 0 + k = get_or-range_with_len 0 count k d here in
    omega (arith, n, place, here)

same : (a b : ℕ) → b ≡ a → ((a == 0) || (a == b)) ≡ true
same a b is = grind (arith, nat_tests)

pub from_case-requires : goal.from_case-requires
from_case-requires c =
    let count : to_z w64 (of_z w64 c.from.result) ≡ pos c.args.count = to_z-of_z w64 c.from.result (record { sfits = c.from.type_inv }) ∙ c.from.ensures in
    record {
      a_tick = search rules;
      step_limit = search rules;
      one_state = search rules;
      not_empty = search rules;
      not_long = search rules;
      values = search rules;
      fill = search rules;
      count = search rules;
      forbid = search rules;
      out_listed = search rules;
      out_range = in_range c.args.count (to_z w64 (of_z w64 c.from.result)) (to_z w64 (of_z w64 (pos 80000000))) count;
      out_length = length-range_with_len 0 c.args.count;
      kind = record {
        alpha = search rules;
        beta = search rules;
        reads = same c.args.count _ (many c.args.count (to_z w64 (of_z w64 c.from.result)) (to_z w64 (of_z w64 (pos 80000000))) count);
      };
    }
END

cat >"$crate/proofs/inputs/Invariants.antt" <<'END'
use Rattle.std.proofs.Common.{◌≡◌, All, vec_len}
use Rattle.fixed_num.specs.Numbers.{IsValue}
use Rattle.rod_steps.proofs.inputs.Given as goal

abbrev pub invariant-loop-i : goal.invariant-loop-i
invariant-loop-i l = (vec_len l.made ≡ l.i) × (All IsValue l.made.items)
END

cat >"$crate/proofs/run/Invariants.antt" <<'END'
use Rattle.std.proofs.Common.{◌≡◌}
use Rattle.line_solvers.specs.LineSolver.{spec_of}
use Rattle.rod_steps.proofs.run.Given as goal

abbrev pub invariant-loop-step : goal.invariant-loop-step
invariant-loop-step l = spec_of l.rod ≡ spec_of l.initial.rod
END

if ! (cd "$crate" && rt run -- 1 </dev/null >/dev/null 2>"$room/build.log"); then
    cat "$room/build.log" >&2
    exit 1
fi
program=$crate/out/rod_steps
for source in rod_loop measure; do
    rustc --edition 2021 -O -o "$room/$source" "$here/$source.rs"
done
cd "$room"
if [ "$("$program" "$steps")" != "$(./rod_loop "$steps")" ]; then
    echo "rod_step: the program and the plain loop differ after $steps steps" >&2
    exit 1
fi

# seconds of the program and of the plain loop at so many steps, the best of nine
measured() { # steps
    local mine plain
    read -r mine _ <<<"$(./measure 9 "$program" "$1")"
    read -r plain _ <<<"$(./measure 9 ./rod_loop "$1")"
    echo "$mine $plain"
}

read -r start plain_start <<<"$(measured 1)"
read -r seconds plain_seconds <<<"$(measured "$steps")"
awk -v n="$steps" -v s="$seconds" -v p="$plain_seconds" -v s0="$start" -v p0="$plain_start" 'BEGIN {
    each = (s - s0) / (n - 1) * 1e3
    plain = (p - p0) / (n - 1) * 1e3
    printf "%6s | %9s %9s | %9s %9s | %5s\n", "steps", "program s", "ms/step", "plain s", "ms/step", "ratio"
    printf "%6d | %9.4f %9.4f | %9.4f %9.4f | %5.2f\n", n, s, each, p, plain, each / plain
}'
