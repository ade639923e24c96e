//! Compares the library with an independent implementation of the scope, on the lines that the scope gives and on files
//! drawn by a seed: the answer, and every byte of the flags with some bytes past their end. Before the drawn files it judges the
//! files of the benchmarks and the hostile files at the limits with 1 MB of stack: that a call needs less is measured so, not
//! proved.
//!
//! `differential [COUNT [SEED [THREADS]]]` draws COUNT files; `differential --file FILE [FLAGS]` compares one file;
//! `differential --limits [NAME..]` judges hostile files at the limits alone, and `differential --write FOLDER` writes them.

use differential::case_file::has_remark;
use differential::random::Random;
use differential::verdict::Verdict;
use differential::{generate, ground, hostile, library, reference, stack};
use std::fs;
use std::process::ExitCode;
use std::thread;

const FILES: u64 = 1_000_000;
const REFUSALS: usize = 15;
/// How often each refusal is to occur among a million files.
const LEAST_OF_A_MILLION: u64 = 1_000;
/// Bytes past the lent flags, which no judge may touch.
const CANARY: usize = 24;
const SHOWN: u64 = 10;
/// The reference nests deeply, in terms that lie on the heap.
const STACK: usize = 64 << 20;

fn main() -> ExitCode {
    let arguments: Vec<String> = std::env::args().skip(1).collect();
    let done = match arguments.iter().map(String::as_str).collect::<Vec<_>>()[..] {
        ["--file", path] => compare_one(path, "1024"),
        ["--file", path, flags] => compare_one(path, flags),
        ["--limits", ..] => try_limits(arguments[1..].to_vec()),
        ["--write", folder] => write_limits(folder),
        _ => numbers_of(&arguments).and_then(|numbers| compare_many(&numbers)),
    };
    match done {
        Ok(true) => ExitCode::SUCCESS,
        Ok(false) => ExitCode::FAILURE,
        Err(message) => {
            eprintln!("{message}");
            ExitCode::from(2)
        }
    }
}

fn number_of(text: &str) -> Result<u64, String> {
    text.replace(['_', ','], "").parse().map_err(|_| format!("not a number: {text}"))
}

fn numbers_of(arguments: &[String]) -> Result<Vec<u64>, String> {
    if arguments.len() > 3 {
        let usage =
            "usage: differential [COUNT [SEED [THREADS]]] | --file FILE [FLAGS] | --limits [NAME..] | --write FOLDER";
        return Err(usage.to_string());
    }
    arguments.iter().map(|text| number_of(text)).collect()
}

// One comparison

/// What both said and left in the flags.
struct Compared {
    reference: Verdict,
    flags: Vec<u8>,
    /// What is different, if anything is.
    mismatch: Option<String>,
}

/// Lets both judge a file, with `lent` flags that hold what `random` gives.
fn compare(file: &[u8], lent: usize, random: &mut Random) -> Compared {
    let before: Vec<u8> = (0..lent + CANARY).map(|_| random.byte()).collect();
    let (mut ours, mut theirs) = (before.clone(), before);
    let lent_file = file.to_vec();
    let reference = reference::judge(file, &mut ours[..lent]);
    let library = library::judge(&lent_file, &mut theirs[..lent]);
    let mismatch = if library != Ok(reference) {
        let said = library.map_or_else(|message| message, |verdict| verdict.to_string());
        Some(format!("reference: {reference}; library: {said}"))
    } else if let Some(place) = (0..ours.len()).find(|&place| ours[place] != theirs[place]) {
        let (our, their) = (ours[place], theirs[place]);
        Some(format!("{reference}; flag {place} of {lent}, reference: {our}, library: {their}"))
    } else if lent_file != file {
        Some(format!("{reference}; the library changed the file"))
    } else {
        None
    };
    ours.truncate(lent);
    Compared { reference, flags: ours, mismatch }
}

fn compare_one(path: &str, flags: &str) -> Result<bool, String> {
    let file = fs::read(path).map_err(|error| format!("{path}: {error}"))?;
    let lent = number_of(flags)? as usize;
    let compared = in_thread(move || compare(&file, lent, &mut Random::new(0)))?;
    println!("{}", compared.reference);
    if let Verdict::Proved { total, .. } | Verdict::Unproved { total, .. } = compared.reference {
        let flags: String = compared.flags.iter().take(total as usize).map(u8::to_string).collect();
        println!("flags {flags}");
    }
    if let Some(mismatch) = &compared.mismatch {
        println!("mismatch: {mismatch}");
    }
    Ok(compared.mismatch.is_none())
}

fn in_thread<T: Send + 'static>(work: impl FnOnce() -> T + Send + 'static) -> Result<T, String> {
    let started = thread::Builder::new().stack_size(STACK).spawn(work).map_err(|error| error.to_string())?;
    started.join().map_err(|_| "a thread stopped".to_string())
}

// The hostile files at the limits

fn try_limits(names: Vec<String>) -> Result<bool, String> {
    if !library::LINKED {
        return Err("the library is not linked: the reference in its place would take hours".to_string());
    }
    let (passed, failed) = in_thread(move || stack::try_limits(&names))??;
    println!("{passed} passed, {failed} failed");
    Ok(failed == 0)
}

fn write_limits(folder: &str) -> Result<bool, String> {
    for hostile in hostile::at_limits() {
        let path = format!("{folder}/{}.case", hostile.name.replace(", ", "-").replace(' ', "-"));
        fs::write(&path, hostile.file.bytes()).map_err(|error| format!("{path}: {error}"))?;
        println!("{path}");
    }
    Ok(true)
}

// Many comparisons

/// What the files were answered.
#[derive(Default)]
struct Tally {
    passed: u64,
    failed: u64,
    verdicts: [u64; 4],
    refusals: [u64; REFUSALS + 1],
    bytes: u64,
    /// Files with remarks that are not refused.
    with_remarks: u64,
    longest_accepted: usize,
    bindings: u64,
    kept: u64,
    most_rounds: u64,
}

impl Tally {
    fn count(&mut self, file: &[u8], compared: &Compared) {
        self.bytes += file.len() as u64;
        self.verdicts[compared.reference.numbers()[0] as usize] += 1;
        let refused = matches!(compared.reference, Verdict::Refused { .. });
        self.with_remarks += u64::from(!refused && has_remark(file));
        match compared.reference {
            Verdict::Refused { number, .. } => self.refusals[number as usize] += 1,
            Verdict::Refuted { .. } => self.longest_accepted = self.longest_accepted.max(file.len()),
            Verdict::Proved { kept, total, rounds } | Verdict::Unproved { kept, total, rounds } => {
                self.longest_accepted = self.longest_accepted.max(file.len());
                self.bindings += total;
                self.kept += kept;
                self.most_rounds = self.most_rounds.max(rounds);
            }
        }
        match compared.mismatch {
            None => self.passed += 1,
            Some(_) => self.failed += 1,
        }
    }

    fn add(&mut self, other: &Tally) {
        self.passed += other.passed;
        self.failed += other.failed;
        self.bytes += other.bytes;
        self.with_remarks += other.with_remarks;
        self.bindings += other.bindings;
        self.kept += other.kept;
        self.longest_accepted = self.longest_accepted.max(other.longest_accepted);
        self.most_rounds = self.most_rounds.max(other.most_rounds);
        self.verdicts.iter_mut().zip(other.verdicts).for_each(|(count, more)| *count += more);
        self.refusals.iter_mut().zip(other.refusals).for_each(|(count, more)| *count += more);
    }

    fn print(&self, seed: u64) {
        let files: u64 = self.verdicts.iter().sum();
        let [proved, unproved, refuted, refused] = self.verdicts;
        println!("seed {seed}: {files} files of {} bytes on average", self.bytes / files.max(1));
        println!("proved {proved}, unproved {unproved}, refuted {refuted}, refused {refused}");
        for (number, count) in self.refusals.iter().enumerate().skip(1) {
            println!("refused {number:2}: {count}");
        }
        println!("kept {} of {} bindings; at most {} rounds", self.kept, self.bindings, self.most_rounds);
        println!("longest file that is not refused: {} bytes", self.longest_accepted);
        println!("not refused and with remarks: {}", self.with_remarks);
    }
}

/// Compares the files of the draws `first`, `first + step`, ..
fn compare_draws(seed: u64, count: u64, first: u64, step: u64) -> Tally {
    let mut tally = Tally::default();
    for number in (first..count).step_by(step as usize) {
        let drawn = generate::draw(seed, number);
        let compared = compare(&drawn.bytes, drawn.flags, &mut Random::for_draw(!seed, number));
        if let Some(mismatch) = &compared.mismatch {
            report(seed, number, &drawn, mismatch, tally.failed);
        }
        tally.count(&drawn.bytes, &compared);
    }
    tally
}

/// Prints a mismatch and keeps its file, for the first few.
fn report(seed: u64, number: u64, drawn: &generate::Drawn, mismatch: &str, earlier: u64) {
    if earlier >= SHOWN {
        return;
    }
    let path = format!("target/differential/mismatch-{seed}-{number}.case");
    let kept = fs::write(&path, &drawn.bytes).map_or_else(|error| error.to_string(), |()| path);
    println!("seed {seed} file {number}, {} flags: {mismatch} ({kept})", drawn.flags);
}

/// Compares the lines of the scope; gives how many passed and failed.
fn compare_lines() -> (u64, u64) {
    let mut counts = (0, 0);
    for line in ground::lines() {
        let compared = compare(&line.file, line.lent, &mut Random::new(1));
        let answered = compared.reference.to_string() == line.answer && compared.flags.starts_with(line.flags);
        if answered && compared.mismatch.is_none() {
            counts.0 += 1;
        } else {
            counts.1 += 1;
            println!("{}: {} expected, reference: {}", line.name, line.answer, compared.reference);
            compared.mismatch.iter().for_each(|mismatch| println!("{}: {mismatch}", line.name));
        }
    }
    counts
}

/// Compares the lines of the scope and drawn files, and tries the stack. True if nothing failed.
fn compare_many(numbers: &[u64]) -> Result<bool, String> {
    let count = numbers.first().copied().unwrap_or(FILES);
    let seed = numbers.get(1).copied().unwrap_or(1);
    let processors = thread::available_parallelism().map_or(1, |count| count.get() as u64);
    let threads = numbers.get(2).copied().unwrap_or(processors).max(1);
    if !library::LINKED {
        println!("the library is not linked: only the reference is run");
    }
    let (mut passed, mut failed) = in_thread(compare_lines)?;
    println!("lines of the scope and the requests: {passed} passed, {failed} failed");
    if library::LINKED {
        let (fit, wrong) = in_thread(stack::try_files)??;
        let (met, missed) = in_thread(|| stack::try_limits(&[]))??;
        let (fit, wrong) = (fit + met, wrong + missed);
        println!("files judged with 1 MB of stack, measured and not proved: {fit} passed, {wrong} failed");
        passed += fit;
        failed += wrong;
    }

    let workers: Result<Vec<_>, String> = (0..threads)
        .map(|first| {
            let work = move || compare_draws(seed, count, first, threads);
            thread::Builder::new().stack_size(STACK).spawn(work).map_err(|error| error.to_string())
        })
        .collect();
    let mut tally = Tally::default();
    for worker in workers? {
        tally.add(&worker.join().map_err(|_| "a thread stopped".to_string())?);
    }
    tally.print(seed);
    if library::LINKED {
        passed += tally.passed;
        failed += tally.failed;
    }
    let rare = tally.refusals.iter().skip(1).filter(|&&seen| seen < LEAST_OF_A_MILLION).count();
    if count >= FILES && rare > 0 {
        println!("{rare} refusals occurred fewer than {LEAST_OF_A_MILLION} times");
        failed += 1;
    }
    println!("{passed} passed, {failed} failed");
    Ok(failed == 0)
}
