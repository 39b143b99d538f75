#!/usr/bin/env bash
# Times the events of two participants under a serial-explicit scheme: of one value each at 10^4, 10^5
# and 10^6 windows, and of 10,000 vertices with 10 samples a window, beside making and copying the same
# waves without a core, held as long as a core holds them or not, in the same run. README.md here says
# how to read the table.
#
# The program that makes the events is written below, proved and built in a temporary folder.
set -euo pipefail
here=$(dirname "$(readlink -f "${BASH_SOURCE[0]}")")
top=$(dirname "$here")
many=${1:-300} # windows of the last row

room=$(mktemp -d)
trap 'rm -rf "$room"' EXIT
mkdir -p "$room/crates"

# a crate and all that it stands on in this repository, lowest first
below() { # crate
    local line name
    line=$(grep -E "^$1:" "$top/crates.txt") || return 0
    [ -e "$room/crates/$1" ] && return 0
    for name in ${line#*:}; do
        below "$name"
    done
    mkdir "$room/crates/$1"
    tar -C "$top/crates/$1" --exclude=./out -cf - . | tar -C "$room/crates/$1" -xf -
    echo "$line" >>"$room/crates.txt"
}
below coupling_core
echo 'core_events: fixed_num mesh_data waveform plan_order cpl_plan core_sides coupling_core anyhow' \
    >>"$room/crates.txt"
git init -q "$room"
crate=$room/crates/core_events
mkdir -p "$crate/src" "$crate/specs" "$crate/proofs/plan/million_windows"
cp "$top/crates/core_tests/src/plans/lists.rt" "$crate/src"
echo 'pub mod Couple' >"$crate/specs/Lib.antt"
echo 'mod CoupleOrder' >"$crate/proofs/Lib.antt"

cat >"$crate/specs/Couple.antt" <<'END'
-- Two participants under a serial-explicit scheme, with a scalar each way, and a million windows.
use Rattle.std.specs.Prelude.{false, [], ◌∷◌, Some, None}
use Rattle.cpl_plan.specs.ExamplePlan.{two_participants, example_part, example_mesh, example_data, example_exchange, entry, read_from, write_onto}
use Rattle.cpl_plan.specs.declared.parts.Kind.TheVariants.{Lag, Fresh}
use Rattle.cpl_plan.specs.declared.parts.PlanParts.{PlanParts}

abbrev pub couple : PlanParts
couple =
    record two_participants {
      end_time = 10000000;
      most_windows = 1000000;
      parts =
          example_part 0 [] (entry 0 0 ∷ []) (entry 1 0 ∷ []) [] [] None
          ∷ example_part 1 (0 ∷ []) (entry 1 1 ∷ []) (entry 0 1 ∷ []) (read_from 0 1 ∷ write_onto 1 0 ∷ []) [] None ∷ [];
      meshes = example_mesh 0 2 (0 ∷ 1 ∷ []) ∷ example_mesh 1 2 (0 ∷ 1 ∷ []) ∷ [];
      data_list = example_data 0 false 1 ∷ example_data 1 false 1 ∷ [];
      exchanges = example_exchange 0 0 0 1 0 Fresh None (Some 0) ∷ example_exchange 1 0 1 0 0 Lag (Some 1) None ∷ [];
    }
END

cat >"$crate/proofs/CoupleOrder.antt" <<'END'
-- The nodes of the plan stand in order, so it is valid.
use Rattle.std.proofs.Common.{refl, zero, suc, ◌<◌, [], ◌∷◌, length, arith}
use Rattle.std.specs.Prelude.{Contains}
use Rattle.plan_order.specs.NodeOrder.{IsNodeOrder}
use Rattle.plan_order.proofs.SmallOrders.{order_from_test}
use Rattle.plan_order.specs.declared.node.Node.{Node}
use Rattle.plan_order.specs.declared.node.Node.TheVariants.{Single, Group}
use Rattle.cpl_plan.specs.PlanNodes.{node_members, solved_before}
use Rattle.cpl_plan.specs.ValidPlan.{IsValidPlan}
use Rattle.cpl_plan.proofs.FactsTold.{valid_plan}
use Rattle.core_events.specs.Couple.{couple}

both : (node : Node) → 0 < length (node_members couple node) → Contains (Single 0 ∷ Single 1 ∷ []) node
both (Single zero) some = (0, omega (arith), refl)
both (Single (suc zero)) some = (1, omega (arith), refl)
both (Single (suc (suc p))) some = absurd (omega (arith, some))
both (Group zero) some = absurd (omega (arith, some))
both (Group (suc s)) some = absurd (omega (arith, some))

pub couple_is_valid : IsValidPlan couple
couple_is_valid =
    valid_plan couple refl
    (order_from_test (node_members couple) (solved_before couple) (Single 0 ∷ Single 1 ∷ []) both couple.nodes refl)
END

cat >"$crate/proofs/plan/million_windows/Answers.antt" <<'END'
use Rattle.std.proofs.Common.{sym, subst}
use Rattle.cpl_plan.specs.ValidPlan.{IsValidPlan}
use Rattle.core_events.proofs.CoupleOrder.{couple_is_valid}
use Rattle.core_events.proofs.plan.million_windows.Goals as goal

pub from_parts-requires : goal.from_parts-requires
from_parts-requires c = subst IsValidPlan (sym c.in_ok-plan_parts.ensures) couple_is_valid
END

cat >"$crate/src/plan.rt" <<'END'
//! The plan.

ghost use Rattle.std.specs.Prelude.{◌≡◌, IfOk, Some, slice_get, false};
ghost use Rattle.core_events.specs.Couple.{couple};

use crate::lists::{both, entry, list, map, mesh, name, only, part};
use cpl_plan::{
    Accel, DataPlan, Exchange, Kind, MeshPlan, Node, Part, Plan, PlanParts, Scheme, SchemeKind,
    WindowMethod,
};
use fixed_num::{Items, Memory};
use std::alloc::Global;

pub fn million_windows(alloc: Global) -> Result<Plan, Memory>
    ensures { IfOk result (λ plan. plan ≡ couple) }
{
    Ok(Plan::from_parts(plan_parts(alloc)?))
}

fn plan_parts(alloc: Global) -> Result<PlanParts, Memory>
    ensures { IfOk result (λ parts. parts ≡ couple) }
{
    Ok(PlanParts {
        method: WindowMethod::Fixed,
        window: 10,
        end_time: 10_000_000,
        most_windows: 1_000_000,
        nodes: list(alloc, &[Node::Single(0), Node::Single(1)])?,
        exchanges: list(alloc, &[forth(), back()])?,
        data_list: both(alloc, scalar(alloc, "d0")?, scalar(alloc, "d1")?)?,
        meshes: meshes(alloc)?,
        schemes: schemes(alloc)?,
        parts: both(alloc, first(alloc)?, second(alloc)?)?,
    })
}

fn scalar(alloc: Global, text: &str) -> Result<DataPlan, Memory>
    ensures { IfOk result (λ made. made ≡ record { name = text.now; vector = false; degree = 1 }) }
{
    Ok(DataPlan {
        name: name(alloc, text)?,
        vector: false,
        degree: 1,
    })
}

fn meshes(alloc: Global) -> Result<Items<MeshPlan>, Memory>
    ensures { IfOk result (λ meshes. meshes ≡ couple.meshes) }
{
    both(
        alloc,
        mesh(alloc, "MA", 0, &[0, 1])?,
        mesh(alloc, "MB", 1, &[0, 1])?,
    )
}

fn schemes(alloc: Global) -> Result<Items<Scheme>, Memory>
    ensures { IfOk result (λ schemes. schemes ≡ couple.schemes) }
{
    let explicit = Scheme {
        kind: SchemeKind::SerialExplicit,
        members: list(alloc, &[0, 1])?,
        min: 1,
        max: 1,
        measures: list(alloc, &[])?,
        accel: Accel::None,
    };
    only(alloc, explicit)
}

fn first(alloc: Global) -> Result<Part, Memory>
    ensures { IfOk result (λ part. Some part ≡ slice_get couple.parts 0) }
{
    let written = [entry(0, 0)];
    let read = [entry(1, 0)];
    part(alloc, "A", 0, &[], &written, &read, &[], None)
}

fn second(alloc: Global) -> Result<Part, Memory>
    ensures { IfOk result (λ part. Some part ≡ slice_get couple.parts 1) }
{
    let written = [entry(1, 1)];
    let read = [entry(0, 1)];
    let maps = [map(true, 0, 1), map(false, 1, 0)];
    part(alloc, "B", 1, &[0], &written, &read, &maps, None)
}

fn forth() -> Exchange
    ensures { Some result ≡ slice_get couple.exchanges 0 }
{
    Exchange {
        data_id: 0,
        mesh: 0,
        from: 0,
        to: 1,
        scheme: 0,
        kind: Kind::Fresh,
        initialize: false,
        substeps: true,
        write_map: None,
        read_map: Some(0),
    }
}

fn back() -> Exchange
    ensures { Some result ≡ slice_get couple.exchanges 1 }
{
    Exchange {
        data_id: 1,
        mesh: 0,
        from: 1,
        to: 0,
        scheme: 0,
        kind: Kind::Lag,
        initialize: false,
        substeps: true,
        write_map: Some(1),
        read_map: None,
    }
}
END

cat >"$crate/src/main.rt" <<'END'
//! Makes the events of two participants in so many windows, with so many vertices and samples, and
//! prints how many there were; or makes the waves of those events without a core, and copies and holds
//! them or not.
#![tactic(auto)]

mod lists;
mod plan;

ghost use Rattle.std.specs.Prelude.{◌<◌, length};

use crate::plan::million_windows;
use anyhow::{Result, anyhow};
use core_sides::{Event, NextKind};
use coupling_core::Core;
use cpl_plan::PartId;
use fixed_num::{Items, Memory};
use mesh_data::{AnyMesh, Mesh};
use std::alloc::Global;
use std::env;
use waveform::{Field, Wave};

/// How much each post has.
#[derive(Clone, Copy)]
struct Sizes {
    vertices: u32,
    samples: u64,
}

fn mesh_of(alloc: Global, vertices: u32) -> Result<AnyMesh, Memory> {
    let mut mesh = Mesh::<2>::new(alloc);
    for v in 0..vertices {
        let Ok(_) = mesh.push_vertex([i64::from(v), 0]) else {
            return Err(Memory);
        };
    }
    Ok(AnyMesh::Two(mesh))
}

/// A wave of some samples, the last at a time.
fn wave_of(alloc: Global, vertices: u32, samples: u64, end: u64) -> Result<Wave, Memory> {
    let first = end.saturating_sub(samples.saturating_sub(1));
    let start = Field::zeros(alloc, vertices as usize, 1)?;
    let Ok(mut wave) = Wave::constant(alloc, first, start) else {
        return Err(Memory);
    };
    for i in 1..samples {
        let next = Field::zeros(alloc, vertices as usize, 1)?;
        let Ok(()) = wave.push(first.saturating_add(i), next) else {
            return Err(Memory);
        };
    }
    Ok(wave)
}

/// A coupling of two participants, each of which sends one exchange.
#[derive(Drop)]
struct Pair {
    core: Core,
    sizes: Sizes,
    ghost two: { 1 < length core.plan.parts },
}

impl Pair {
    fn new(alloc: Global, sizes: Sizes) -> Result<Pair, Memory> {
        Ok(Pair {
            core: Core::new(alloc, million_windows(alloc)?)?,
            sizes,
        })
    }

    /// The events of both participants, by turns, until the second has completed a window.
    fn events(&mut self, alloc: Global, windows: u32) -> Result<u64, Memory> {
        let mut count = 0u64;
        for _round in 0..u64::from(windows) * 4 + 20 {
            if self.step(alloc, 0)? {
                count = count.saturating_add(1);
            }
            if self.step(alloc, 1)? {
                count = count.saturating_add(1);
            }
            if self.core.position(1).0 > windows {
                break;
            }
        }
        Ok(count)
    }

    /// Makes the next event of a participant, if it may; says whether it did.
    fn step(&mut self, alloc: Global, p: PartId) -> Result<bool, Memory>
        requires { p < 2 }
    {
        let Some(event) = self.event(alloc, p)? else {
            return Ok(false);
        };
        if !self.core.fits(p, &event) {
            return Ok(false);
        }
        Ok(self.core.apply(p, event).is_ok())
    }

    /// The next event of a participant; None where it has ended.
    fn event(&self, alloc: Global, p: PartId) -> Result<Option<Event>, Memory>
        requires { p < 2 }
    {
        Ok(match self.core.next_kind(p) {
            NextKind::PostMesh => {
                let mut meshes = Vec::new(alloc);
                meshes.push(mesh_of(alloc, self.sizes.vertices)?)?;
                Some(Event::PostMesh(Items::from_vec(meshes)))
            }
            NextKind::TakeMeshes => Some(Event::TakeMeshes),
            NextKind::Post => Some(Event::Post(self.post(alloc, p)?)),
            NextKind::Judge => Some(Event::Judge),
            NextKind::Take => Some(Event::Take),
            NextKind::End => Some(Event::End),
            NextKind::None => None,
        })
    }

    /// The one wave that a participant posts at its turn.
    fn post(&self, alloc: Global, p: PartId) -> Result<Items<Wave>, Memory>
        requires { p < 2 }
    {
        let (window, _) = self.core.position(p);
        let samples = if window == 0 { 1 } else { self.sizes.samples };
        let end = u64::from(window) * 10;
        let mut waves = Vec::new(alloc);
        waves.push(wave_of(alloc, self.sizes.vertices, samples, end)?)?;
        Ok(Items::from_vec(waves))
    }
}

/// What is done with waves, beside making them.
#[derive(Clone, Copy)]
struct Uses {
    copying: bool,
    holding: bool,
}

/// Makes the two waves of each window. If asked, copies what is taken: all samples of the first, with
/// a value before them, and the newest value of the second. If asked, holds each wave until the next
/// of its direction is made, as a core does, so that the two newest are there at once.
fn waves(alloc: Global, sizes: Sizes, windows: u32, uses: Uses) -> Result<u64, Memory> {
    let mut held_forth = None;
    let mut held_back = None;
    for w in 0..windows {
        let end = (u64::from(w) + 1) * 10;
        let forth = wave_of(alloc, sizes.vertices, sizes.samples, end)?;
        if uses.copying {
            copy(alloc, &forth, true)?;
        }
        held_forth = if uses.holding { Some(forth) } else { None };
        let back = wave_of(alloc, sizes.vertices, sizes.samples, end)?;
        if uses.copying {
            copy(alloc, &back, false)?;
        }
        held_back = if uses.holding { Some(back) } else { None };
    }
    drop(held_forth);
    drop(held_back);
    Ok(u64::from(windows))
}

/// Copies the newest value of a wave, and all of it or not.
fn copy(alloc: Global, wave: &Wave, all: bool) -> Result<(), Memory> {
    let newest = wave.field(wave.len() - 1).copy(alloc)?;
    if all {
        let taken = wave.copy(alloc)?;
        drop(taken);
    }
    drop(newest);
    Ok(())
}

fn run(alloc: Global, work: &str, sizes: Sizes, windows: u32) -> Result<u64, Memory> {
    if work != "core" {
        let uses = Uses {
            copying: work != "waves",
            holding: work == "held",
        };
        return waves(alloc, sizes, windows, uses);
    }
    Pair::new(alloc, sizes)?.events(alloc, windows)
}

fn main(rt: HostRuntime) -> anyhow::Result<()> {
    let mut words = env::args(&rt)?;
    let (Some(work), Some(windows)) = (words.nth(1), words.next()) else {
        return Err(anyhow!("core_events <core, held, copies or waves> <windows> <vertices> <samples>"));
    };
    let (Some(vertices), Some(samples)) = (words.next(), words.next()) else {
        return Err(anyhow!("core_events <core, held, copies or waves> <windows> <vertices> <samples>"));
    };
    let windows = windows.parse::<u32>()?;
    let sizes = Sizes {
        vertices: vertices.parse::<u32>()?,
        samples: samples.parse::<u64>()?.clamp(1, 10),
    };
    let Ok(count) = run(rt.alloc(), work.as_str(), sizes, windows) else {
        return Err(anyhow!("out of memory"));
    };
    println!(&rt; "{count}")?;
    Ok(())
}
END

if ! (cd "$crate" && rt run -- core 1 1 1 </dev/null >/dev/null 2>"$room/build.log"); then
    cat "$room/build.log" >&2
    exit 1
fi
program=$crate/out/core_events
rustc --edition 2021 -O --out-dir "$room" "$here/measure.rs"
measure=$room/measure

# each participant has two events a window, and before them its mesh, those that it receives, and its
# initial post
for windows in 1 "$many" 10000; do
    made=$("$program" core "$windows" 1 1)
    if [ "$made" != $((windows * 4 + 6)) ]; then
        echo "core: $windows windows have $made events" >&2
        exit 1
    fi
done

# freed memory is kept: else each window of the copies takes its pages anew, and the core looks fast
export MALLOC_TRIM_THRESHOLD_=1000000000
TIMEFORMAT='%U %S'

# the least processor seconds of each work; runs take turns, so that other work on the machine disturbs
# all alike
least() { # times windows vertices samples
    local work
    for _ in $(seq "$1"); do
        for work in core held copies waves; do
            echo "$work $({ time "$program" "$work" "$2" "$3" "$4" >/dev/null; } 2>&1)"
        done
    done | awk '{ s = $2 + $3; if (!($1 in least) || s < least[$1]) least[$1] = s }
        END { print least["core"], least["held"], least["copies"], least["waves"] }'
}

# the greatest resident memory of a run
resident() { # work windows vertices samples
    "$measure" 1 "$program" "$@" | cut -d ' ' -f 2
}

row() { # times windows vertices samples
    local first all
    first=$(least 20 1 "$3" "$4")
    all=$(least "$@")
    echo "$2 $3 $4 $first $all $(resident core "$2" "$3" "$4") $(resident held "$2" "$3" "$4") $(resident copies "$2" "$3" "$4")" |
        awk '{
            us = 1e6 / ($1 - 1)
            core = ($8 - $4) * us; held = ($9 - $5) * us; copies = ($10 - $6) * us; waves = ($11 - $7) * us
            printf "%8d %8d %7d | %10.3f %9.0f %7d | %10.3f %7d %5.2f | %10.3f %7d %5.2f | %10.3f\n", $1, $2, $3,
                core, 4e6 / core, $12, held, $13, core / held, copies, $14, core / copies, waves
        }'
}
printf '%8s %8s %7s | %10s %9s %7s | %10s %7s %5s | %10s %7s %5s | %10s\n' \
    windows vertices samples 'core us' events/s KiB 'held us' KiB ratio 'copies us' KiB ratio 'waves us'
row 9 10000 1 1
row 9 100000 1 1
row 9 1000000 1 1
row "${2:-40}" "$many" 10000 10
