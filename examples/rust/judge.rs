//! Judges the case file that is its argument and prints the verdict.
//!
//!     bin/staticlib
//!     rustc -O examples/rust/judge.rs -L target/staticlib -l static=capi -o target/judge_rust
//!     target/judge_rust examples/e.case

use std::process::ExitCode;

unsafe extern "C" {
    fn plan_judge(file: *const u8, file_length: usize, flags: *mut u8, flags_length: usize, out: *mut [u64; 4]) -> u64;
}

/// What a case file is answered.
#[derive(Debug, PartialEq)]
pub enum Verdict {
    Proved { kept: u64, total: u64, rounds: u64 },
    Unproved { kept: u64, total: u64, rounds: u64 },
    Refuted { letters: u64, state: u64, constructor: u64 },
    Refused { number: u64, place: u64 },
}

/// Judges the bytes of a file; for a binding case the flags of its bindings are written.
pub fn judge(file: &[u8], flags: &mut [u8]) -> Verdict {
    let mut out = [0u64; 4];
    // The three areas are lent for the call alone and do not overlap.
    unsafe { plan_judge(file.as_ptr(), file.len(), flags.as_mut_ptr(), flags.len(), &mut out) };
    match out {
        [0, kept, total, rounds] => Verdict::Proved { kept, total, rounds },
        [1, kept, total, rounds] => Verdict::Unproved { kept, total, rounds },
        [2, letters, state, constructor] => Verdict::Refuted { letters, state, constructor },
        [_, number, place, _] => Verdict::Refused { number, place },
    }
}

fn main() -> ExitCode {
    let Some(name) = std::env::args().nth(1) else {
        eprintln!("usage: judge_rust FILE");
        return ExitCode::from(2);
    };
    let file = match std::fs::read(&name) {
        Ok(bytes) => bytes,
        Err(error) => {
            eprintln!("{name}: {error}");
            return ExitCode::from(2);
        }
    };
    let mut flags = [0u8; 1024];
    let verdict = judge(&file, &mut flags);
    println!("{verdict:?}");
    ExitCode::from(if matches!(verdict, Verdict::Proved { .. }) { 0 } else { 1 })
}
