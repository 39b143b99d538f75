//! Runs a program some times and prints the least seconds of a run and the greatest resident memory
//! of one, in KiB.
//!
//!     measure <times> <program> <word>..
//!
//! Linux counts what the parent held before the new program began as the child's, so this is a small
//! program and no script: about 2 MiB is the least that it can tell.

use std::env;
use std::error::Error;
use std::process::{Command, Stdio};
use std::time::Instant;

extern "C" {
    fn wait4(process: i32, status: *mut i32, options: i32, usage: *mut i64) -> i32;
}

/// The words of the C library's `struct rusage`, and the place of its greatest resident memory.
const USAGE_WORDS: usize = 18;
const RESIDENT: usize = 4;

/// The status of a process that ended with 4, as `wait4` tells it: files were refused.
const REFUSED: i32 = 4 << 8;

/// The seconds and the memory of one run, which must end with the status 0, or with 4.
fn run(program: &str, words: &[String]) -> Result<(f64, i64), Box<dyn Error>> {
    let start = Instant::now();
    let child = Command::new(program)
        .args(words)
        .stdout(Stdio::null())
        .spawn()?;
    let mut status = 0;
    let mut usage = [0; USAGE_WORDS];
    // both pointers are to locals that are as large as the call asks for, and the child is our own
    let ended = unsafe { wait4(child.id() as i32, &mut status, 0, usage.as_mut_ptr()) };
    let seconds = start.elapsed().as_secs_f64();
    if ended < 0 || (status != 0 && status != REFUSED) {
        return Err(format!("{program} {words:?} failed").into());
    }
    Ok((seconds, usage[RESIDENT]))
}

fn main() -> Result<(), Box<dyn Error>> {
    let all: Vec<String> = env::args().skip(1).collect();
    let [times, program, words @ ..] = all.as_slice() else {
        return Err("usage: measure <times> <program> <word>..".into());
    };
    let mut least = f64::INFINITY;
    let mut most = 0;
    for _ in 0..times.parse::<u32>()? {
        let (seconds, resident) = run(program, words)?;
        least = least.min(seconds);
        most = most.max(resident);
    }
    println!("{least:.6} {most}");
    Ok(())
}
