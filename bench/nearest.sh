#!/usr/bin/env bash
# Times the grid's build and 10,000 look-ups of nearest vertices, on meshes of 10,000 vertices, beside a
# tree of nanoflann, one of Boost (nearest.cpp), and a plain scan, in the same run. README.md here says
# how to read the table.
#
# The program that looks up is written below, proved and built in a temporary folder. A column whose
# library is missing is skipped; on Debian `apt install g++ libnanoflann-dev libboost-dev` brings them.
set -euo pipefail
here=$(dirname "$(readlink -f "${BASH_SOURCE[0]}")")
top=$(dirname "$here")
rounds=${1:-11}

room=$(mktemp -d)
trap 'rm -rf "$room"' EXIT
mkdir -p "$room/crates"
cp -r "$top"/crates/{fixed_num,mesh_data,grid_index} "$room/crates"
rm -rf "$room"/crates/*/out
{
    grep -E '^(fixed_num|mesh_data|grid_index):' "$top/crates.txt"
    echo 'nearest: mesh_data grid_index anyhow'
} >"$room/crates.txt"
git init -q "$room"
crate=$room/crates/nearest
mkdir -p "$crate/src"

cat >"$crate/src/main.rt" <<'END'
//! Builds the grid of a mesh and looks up the nearest vertices of 10,000 points, as often as the
//! third word says. The first word is the shape of the mesh, the second its dimensions.
#![tactic(auto)]

ghost use Rattle.std.specs.Prelude.{◌<◌, ◌≤◌, ◌^◌};
ghost use Rattle.mesh_data.specs.Points.{IsDimension};

use anyhow::{Result, anyhow};
use grid_index::{Grid, Steps};
use mesh_data::{Mesh, Point};
use std::alloc::Global;
use std::env;

const COUNT: u64 = 10_000;

#[derive(Clone, Copy)]
enum Shape {
    Lattice,
    Cloud,
    Surface,
    Clusters,
}

fn shape_of(word: &str) -> Option<Shape> {
    match word {
        "lattice" => Some(Shape::Lattice),
        "cloud" => Some(Shape::Cloud),
        "surface" => Some(Shape::Surface),
        "clusters" => Some(Shape::Clusters),
        _ => None,
    }
}

/// A number that looks random, from the one before it.
fn next(seed: u64) -> u64 {
    let mixed = seed.wrapping_mul(6_364_136_223_846_793_005);
    mixed.wrapping_add(1_442_695_040_888_963_407)
}

/// A coordinate that is not below the least one, from the high bits.
fn coordinate_from(least: u64, bound: u64, seed: u64) -> i64
    requires some { 0 < bound }
    requires few { bound ≤ 10 ^ 12 }
    requires near { least ≤ 10 ^ 12 }
{
    (least + (seed >> 33) % bound) as i64
}

fn below(seed: u64, bound: u64) -> i64
    requires some { 0 < bound }
    requires few { bound ≤ 10 ^ 12 }
{
    coordinate_from(0, bound, seed)
}

/// Coordinate i of vertex v.
fn coordinate(shape: Shape, dimensions: usize, v: u64, i: usize, seed: u64) -> i64
    requires { i < dimensions }
{
    match shape {
        Shape::Lattice => {
            let (first, second) = if dimensions == 2 { (100, 100) } else { (25, 20) };
            let place = match i {
                0 => v % first,
                1 => v / first % second,
                _ => v / first / second,
            };
            (place % 10_000) as i64 * 1_000_000
        }
        Shape::Cloud => below(seed, 1_000_000_000),
        Shape::Surface if i == dimensions - 1 => below(seed, 1_000),
        Shape::Surface => below(seed, 1_000_000_000),
        Shape::Clusters if v % 2 == 0 => below(seed, 1_000_000),
        Shape::Clusters => coordinate_from(100_000_000_000, 1_000_000, seed),
    }
}

/// Point v of a shape, or a point to be looked up, by a seed; with the seed after it.
fn point_at<const D: usize>(shape: Shape, v: u64, is_query: bool, seed: u64) -> ([i64; D], u64)
    requires { IsDimension D }
{
    let mut at = [0i64; D];
    let mut seed = seed;
    for i in 0..D {
        seed = next(seed);
        at[i] = match shape {
            Shape::Lattice if is_query && D == 2 => below(seed, 99_000_000),
            Shape::Lattice if is_query => below(seed, 19_000_000),
            _ => coordinate(shape, D, v, i, seed),
        };
    }
    (at, seed)
}

fn mesh_of<const D: usize>(alloc: Global, shape: Shape) -> Result<Mesh<D>>
    requires { IsDimension D }
{
    let mut mesh = Mesh::new(alloc);
    let mut seed = 1;
    for v in 0..COUNT {
        let (at, after) = point_at::<D>(shape, v, false, seed);
        seed = after;
        mesh.push_vertex(at)?;
    }
    Ok(mesh)
}

/// The sum of the numbers of the nearest vertices.
fn looked_up<const D: usize>(alloc: Global, mesh: &Mesh<D>, shape: Shape) -> Result<u64>
    requires { IsDimension D }
{
    if mesh.len() == 0 {
        return Err(anyhow!("no vertices"));
    }
    let Ok(grid) = Grid::build(alloc, mesh) else {
        return Err(anyhow!("out of memory"));
    };
    let mut sum = 0u64;
    let mut seed = 2;
    for v in 0..COUNT {
        let (at, after) = point_at::<D>(shape, v, true, seed);
        seed = after;
        let Some(point) = Point::new(at) else {
            return Err(anyhow!("out of range"));
        };
        let mut steps = Steps::new();
        sum = sum.wrapping_add(u64::from(grid.nearest(&point, &mut steps)));
    }
    Ok(sum)
}

fn run<const D: usize>(alloc: Global, shape: Shape, rounds: u32) -> Result<u64>
    requires { IsDimension D }
{
    let mesh = mesh_of::<D>(alloc, shape)?;
    let mut sum = 0u64;
    for _round in 0..rounds {
        sum = sum.wrapping_add(looked_up(alloc, &mesh, shape)?);
    }
    Ok(sum)
}

fn main(rt: HostRuntime) -> anyhow::Result<()> {
    let mut words = env::args(&rt)?;
    let usage = "usage: nearest <shape> <2 or 3> <rounds>";
    let (Some(shape), Some(dimensions), Some(rounds)) = (words.nth(1), words.next(), words.next())
    else {
        return Err(anyhow!(usage));
    };
    let Some(shape) = shape_of(&shape) else {
        return Err(anyhow!(usage));
    };
    let rounds = rounds.parse::<u32>()?;
    let sum = if dimensions.as_str() == "2" {
        run::<2>(rt.alloc(), shape, rounds)?
    } else {
        run::<3>(rt.alloc(), shape, rounds)?
    };
    println!(&rt; "{sum}")?;
    Ok(())
}
END

if ! (cd "$crate" && rt run -- cloud 2 1 </dev/null >/dev/null 2>"$room/build.log"); then
    cat "$room/build.log" >&2
    exit 1
fi
program=$crate/out/nearest

libraries=()
flags=()
has() { # header
    echo "#include <$1>" | g++ -std=c++17 -E -x c++ - >/dev/null 2>&1
}
if has nanoflann.hpp; then
    libraries+=(kdtree)
    flags+=(-DHAS_NANOFLANN)
fi
if has boost/geometry/index/rtree.hpp; then
    libraries+=(rtree)
    flags+=(-DHAS_BOOST -DBOOST_ALLOW_DEPRECATED_HEADERS)
fi
g++ -O2 -std=c++17 -w "${flags[@]}" -o "$room/other" "$here/nearest.cpp"
cd "$room"

TIMEFORMAT=%U

# processor seconds of a run, the least of five
least() { # program and its words..
    for _ in 1 2 3 4 5; do
        { time "$@" >/dev/null; } 2>&1
    done | sort -g | head -n 1
}

# milliseconds of a round: those of a run of so many rounds less those of one round
round() { # rounds, program and its first words..
    local many=$1 long short
    shift
    long=$(least "$@" "$many")
    short=$(least "$@" 1)
    awk -v l="$long" -v s="$short" -v n="$many" 'BEGIN { printf "%.2f", (l - s) / (n - 1) * 1e3 }'
}

printf "%-9s %s | %8s | %8s %6s | %8s %6s | %8s %6s\n" shape D "grid ms" kdtree ratio rtree ratio scan ratio
for shape in lattice cloud surface clusters; do
    for dimensions in 2 3; do
        mine=$(round "$rounds" "$program" "$shape" "$dimensions")
        printf "%-9s %s | %8s" "$shape" "$dimensions" "$mine"
        for how in kdtree rtree scan; do
            if [[ $how != scan && " ${libraries[*]} " != *" $how "* ]]; then
                printf " | %8s %6s" - -
                continue
            fi
            many=$rounds
            [ "$how" = scan ] && many=2
            other=$(round "$many" ./other "$how" "$shape" "$dimensions")
            ratio=$(awk -v a="$mine" -v b="$other" 'BEGIN { printf "%.2f", a / b }')
            printf " | %8s %6s" "$other" "$ratio"
        done
        echo
    done
done
