//! The hostile families are what they are said to be: accepted, with so many rounds; and the fast implementation agrees with the
//! reference on them.

use differential::fast::Judge;
use differential::hostile::{self, Hostile};
use differential::reference;
use std::thread;

const FLAGS: usize = 1_024;
/// The tables of the fast implementation are made on the stack before they are moved.
const STACK: usize = 64 << 20;

fn try_small_files() {
    let mut judge = Judge::new();
    for Hostile { name, file, rounds } in hostile::small() {
        let bytes = file.bytes();
        let (mut ours, mut theirs) = ([9; FLAGS], [9; FLAGS]);
        let verdict = reference::judge(&bytes, &mut ours);
        assert_eq!(verdict.rounds(), Some(rounds as u64), "{name}: {verdict}");
        assert_eq!(judge.judge(&bytes, &mut theirs), verdict, "{name}");
        assert!(ours == theirs, "{name}: flags");
    }
}

#[test]
fn small_files_take_their_rounds() {
    let started = thread::Builder::new().stack_size(STACK).spawn(try_small_files).expect("a thread");
    started.join().expect("small files");
}

#[test]
fn files_at_the_limits_are_accepted() {
    for Hostile { name, file, .. } in hostile::at_limits() {
        assert!(reference::examine(&file.bytes(), FLAGS).is_ok(), "{name}");
    }
}
