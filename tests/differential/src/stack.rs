//! The stack that a call of the library needs: measured, not proved.

use crate::fast::Judge;
use crate::hostile::{self, Hostile};
use crate::verdict::Verdict;
use crate::{classes, library, reference};
use std::thread;
use std::time::Instant;

/// A call is said to need less.
pub const STACK: usize = 1 << 20;

const FLAGS: usize = 1_024;

/// What the library says of a file, and the flags that it leaves, in a thread that has 1 MB of stack. A call that needs more ends
/// the program.
fn judge(name: &str, bytes: Vec<u8>) -> Result<(Result<Verdict, String>, Vec<u8>), String> {
    let work = move || {
        let mut flags = vec![0; FLAGS];
        (library::judge(&bytes, &mut flags), flags)
    };
    let started = thread::Builder::new().stack_size(STACK).spawn(work).map_err(|error| error.to_string())?;
    started.join().map_err(|_| format!("{name}: the thread stopped"))
}

/// Judges the files of the benchmarks, the largest, the nested and those with long paths among them. Gives how many answers were
/// right and how many wrong.
pub fn try_files() -> Result<(u64, u64), String> {
    let mut counts = (0, 0);
    for subject in classes::classes()?.into_iter().flat_map(|class| class.subjects) {
        let expected = reference::judge(&subject.bytes, &mut [0; FLAGS]);
        match judge(&subject.name, subject.bytes)?.0 {
            Ok(said) if said == expected => counts.0 += 1,
            said => {
                counts.1 += 1;
                println!("{}: {expected} expected, with 1 MB of stack: {said:?}", subject.name);
            }
        }
    }
    Ok(counts)
}

/// Judges the hostile files at the limits, all of them or those whose names begin with one of some words, beside the fast
/// implementation: the reference would take hours. Prints a line for each. Gives how many answers were right and how many wrong.
pub fn try_limits(names: &[String]) -> Result<(u64, u64), String> {
    let mut fast = Judge::new();
    let mut counts = (0, 0);
    let is_named = |file: &Hostile| names.is_empty() || names.iter().any(|name| file.name.starts_with(name.as_str()));
    for Hostile { name, file, rounds } in hostile::at_limits().into_iter().filter(is_named) {
        let bytes = file.bytes();
        let mut flags = vec![0; FLAGS];
        let expected = fast.judge(&bytes, &mut flags);
        let start = Instant::now();
        let (said, left) = judge(name, bytes)?;
        let seconds = start.elapsed().as_secs_f64();
        let right = said == Ok(expected) && left == flags && expected.rounds() == Some(rounds as u64);
        if right {
            counts.0 += 1;
            println!("{name}: {expected}, in {seconds:.3} s");
        } else {
            counts.1 += 1;
            println!("{name}: {expected} expected, in {rounds} rounds, with 1 MB of stack: {said:?}");
        }
    }
    Ok(counts)
}
