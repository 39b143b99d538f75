//! The steps of a rod of 60,000 components as a plain loop, in stock Rust and without any proof:
//! what the proved solver is measured against.
//!
//!     rustc --edition 2021 -O rod_loop.rs && ./rod_loop 3

use std::env;
use std::process::ExitCode;

/// The units of one whole.
const UNITS: u128 = 1_000_000;

/// The greatest absolute value of a value, in units.
const VALUE_LIMIT: i128 = 10_000_000_000_000;

const COUNT: usize = 60_000;

struct Rod {
    alpha: i64,
    beta: i64,
    out: Vec<usize>,
    state: Vec<i64>,
}

/// The whole number nearest to a / b, and of two equally near ones the even one; b is positive.
/// It divides once, magnitude by magnitude.
fn quot_even(a: i128, b: u128) -> i128 {
    let size = a.unsigned_abs();
    let whole = size / b;
    let twice = 2 * (size - whole * b);
    let is_up = twice > b || (twice == b && whole % 2 == 1);
    let nearest = (whole + u128::from(is_up)) as i128;
    if a < 0 {
        -nearest
    } else {
        nearest
    }
}

/// The value of so many units, where they are in range.
fn value_of(units: i128) -> Option<i64> {
    if units < -VALUE_LIMIT || VALUE_LIMIT < units {
        return None;
    }
    Some(units as i64)
}

impl Rod {
    /// Component `i` after so many ticks.
    fn component(&self, ticks: u64, inputs: &[i64], i: usize) -> Option<i64> {
        let here = self.state[i];
        let before = self.state[i.saturating_sub(1)];
        let after = self.state[(i + 1).min(self.state.len() - 1)];
        let bend = before - 2 * here + after;
        let pull = inputs[i] - here;
        let slope =
            i128::from(self.alpha) * i128::from(bend) + i128::from(self.beta) * i128::from(pull);
        let change = i128::from(ticks).checked_mul(slope)?;
        value_of(i128::from(here) + quot_even(change, UNITS))
    }

    /// Steps, and writes; false where a component is out of range.
    fn step(&mut self, ticks: u64, inputs: &[i64], writes: &mut [i64]) -> bool {
        let mut next = Vec::with_capacity(self.state.len());
        for i in 0..self.state.len() {
            match self.component(ticks, inputs, i) {
                Some(component) => next.push(component),
                None => return false,
            }
        }
        for (write, place) in writes.iter_mut().zip(&self.out) {
            *write = next[*place];
        }
        self.state = next;
        true
    }
}

fn main() -> ExitCode {
    let Some(steps) = env::args().nth(1).and_then(|word| word.parse::<u32>().ok()) else {
        eprintln!("usage: rod_loop <steps>");
        return ExitCode::from(2);
    };
    let mut rod = Rod {
        alpha: 1_000,
        beta: 2_000,
        out: (0..COUNT).collect(),
        state: vec![80_000_000; COUNT],
    };
    let inputs: Vec<i64> = (0..COUNT as i64).map(|i| i % 1000 * 1_000_000).collect();
    let mut writes = vec![0; COUNT];
    for _ in 0..steps {
        if !rod.step(25, &inputs, &mut writes) {
            return ExitCode::from(5);
        }
    }
    println!("{} {} {}", writes[0], writes[COUNT / 2], writes[COUNT - 1]);
    ExitCode::SUCCESS
}
