//! The same coupling as a plain loop, in stock Rust and without any proof: what the proved program
//! is measured against. It reads no file: the two cases of `examples/base` stand below.
//!
//!     rustc --edition 2021 -O plain_loop.rs && ./plain_loop 3

use std::env;
use std::process::ExitCode;

/// The units of one whole.
const UNITS: i128 = 1_000_000;

/// The greatest absolute value of a value, in units.
const VALUE_LIMIT: i128 = 10_000_000_000_000;

/// The ticks of a window.
const WINDOW: u64 = 10;

/// The most windows that a run may have.
const MOST_WINDOWS: u64 = 1_000_000;

/// One term of a row: which component or input, from 0, and its coefficient in units.
struct Pair {
    index: usize,
    number: i64,
}

/// How a component comes from the state before the step and from the inputs.
struct Row {
    add: i64,
    states: Vec<Pair>,
    reads: Vec<Pair>,
}

struct Solver {
    rows: Vec<Row>,
    state: Vec<i64>,
}

struct Participant {
    name: &'static str,
    solver: Solver,
    /// The value that it gave last.
    given: i64,
    has_stopped: bool,
    steps: u64,
    /// The window in which it faulted.
    fault: Option<u64>,
}

/// The whole number nearest to a / b, and of two equally near ones the even one; b is positive.
fn quot_even(a: i128, b: i128) -> i128 {
    let whole = a.div_euclid(b);
    let twice = 2 * a.rem_euclid(b);
    if twice < b || (twice == b && whole % 2 == 0) {
        whole
    } else {
        whole + 1
    }
}

fn weighted_sum(pairs: &[Pair], values: &[i64]) -> i128 {
    pairs
        .iter()
        .map(|pair| i128::from(pair.number) * i128::from(values[pair.index]))
        .sum()
}

/// The value of so many units, where they are in range.
fn value_of(units: i128) -> Option<i64> {
    if units < -VALUE_LIMIT || VALUE_LIMIT < units {
        return None;
    }
    Some(units as i64)
}

impl Row {
    fn component(&self, state: &[i64], inputs: &[i64]) -> Option<i64> {
        let total = weighted_sum(&self.states, state) + weighted_sum(&self.reads, inputs);
        value_of(i128::from(self.add) + quot_even(total, UNITS))
    }
}

impl Solver {
    /// The new first component, or None where a component is out of range.
    fn step(&mut self, inputs: &[i64]) -> Option<i64> {
        let next: Option<Vec<i64>> = self
            .rows
            .iter()
            .map(|row| row.component(&self.state, inputs))
            .collect();
        self.state = next?;
        Some(self.state[0])
    }
}

impl Participant {
    fn new(name: &'static str, add: i64, factor: i64) -> Participant {
        let row = Row {
            add,
            states: Vec::new(),
            reads: vec![Pair {
                index: 0,
                number: factor,
            }],
        };
        Participant {
            name,
            solver: Solver {
                rows: vec![row],
                state: vec![0],
            },
            given: 0,
            has_stopped: false,
            steps: 0,
            fault: None,
        }
    }

    /// Its turn in a window; None where its partner has not given the input.
    fn turn(&mut self, window: u64, input: Option<i64>) {
        if self.has_stopped {
            return;
        }
        let Some(input) = input else {
            self.has_stopped = true;
            return;
        };
        match self.solver.step(&[input]) {
            Some(value) => {
                self.given = value;
                self.steps += 1;
            }
            None => {
                self.has_stopped = true;
                self.fault = Some(window);
            }
        }
    }

    fn print_state(&self) {
        print!("participant {} steps {} state", self.name, self.steps);
        for units in &self.solver.state {
            print!(" {}", value_text(*units));
        }
        println!();
    }
}

/// A value's text: no zero stands at the end of its decimals.
fn value_text(units: i64) -> String {
    let sign = if units < 0 { "-" } else { "" };
    let magnitude = units.unsigned_abs();
    let text = format!("{sign}{}.{:06}", magnitude / 1_000_000, magnitude % 1_000_000);
    text.trim_end_matches('0').trim_end_matches('.').to_string()
}

fn main() -> ExitCode {
    let count = env::args().nth(1).and_then(|word| word.parse().ok());
    let Some(windows) = count.filter(|count| (1..=MOST_WINDOWS).contains(count)) else {
        eprintln!("usage: plain_loop <windows>");
        return ExitCode::from(2);
    };
    let mut first = Participant::new("A", 1_000_000, 1_000_000);
    let mut second = Participant::new("B", 0, 500_000);
    for window in 1..=windows {
        // the first lags by a window: the second has given that value unless it stopped before
        let lag = Some(second.given).filter(|_| second.steps == window - 1);
        first.turn(window, lag);
        let fresh = Some(first.given).filter(|_| first.steps == window);
        second.turn(window, fresh);
    }
    let faults = [&first, &second].map(|part| part.fault.map(|window| (window, part.name)));
    if let Some((window, name)) = faults.into_iter().flatten().min() {
        println!("fault participant {name} window {window} iteration 1 step 1 code 1");
        return ExitCode::from(5);
    }
    println!("coupled {windows} windows to {}", windows * WINDOW);
    first.print_state();
    second.print_state();
    ExitCode::SUCCESS
}
