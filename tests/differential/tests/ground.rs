//! The lines that the scope gives, for the reference and, where `bin/staticlib` has made the archive, for the library.

use differential::verdict::Verdict;
use differential::{ground, library, reference, stack};

/// What a flag holds before a call; no judge writes it.
const BEFORE: u8 = 7;

/// How many flags a verdict writes.
fn written(verdict: Verdict) -> usize {
    match verdict {
        Verdict::Proved { total, .. } | Verdict::Unproved { total, .. } => total as usize,
        Verdict::Refuted { .. } | Verdict::Refused { .. } => 0,
    }
}

fn try_lines(judge: impl Fn(&[u8], &mut [u8]) -> Verdict) {
    for line in ground::lines() {
        let mut flags = vec![BEFORE; line.lent];
        let verdict = judge(&line.file, &mut flags);
        assert_eq!(verdict.to_string(), line.answer, "{}", line.name);
        assert!(flags.starts_with(line.flags), "{}: flags {flags:?}", line.name);
        assert!(flags[written(verdict)..].iter().all(|&flag| flag == BEFORE), "{}: flags {flags:?}", line.name);
    }
}

#[test]
fn reference_answers_the_lines_of_the_scope() {
    try_lines(reference::judge);
}

#[test]
#[cfg_attr(without_library, ignore = "`bin/staticlib` makes the library")]
fn library_answers_the_lines_of_the_scope() {
    try_lines(|file, flags| library::judge(file, flags).expect("a verdict"));
}

#[test]
#[cfg_attr(without_library, ignore = "`bin/staticlib` makes the library")]
fn library_needs_less_than_1_mb_of_stack() {
    let (right, wrong) = stack::try_files().expect("threads");
    assert!(right > 0 && wrong == 0, "{wrong} wrong answers");
}
