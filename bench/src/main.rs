//! Measures the library beside an implementation of the same rules that is written for speed and not proved: nanoseconds
//! for a call and their ratio by class, and how time grows as one measure of a file doubles.
//!
//! The library is called as a caller calls it, by `plan_judge`, which makes its tables at each call; the fast implementation
//! keeps its tables from call to call. Both run in one thread, by turns; each figure is a median of processor time. Before
//! that, the fast implementation is compared with the reference of the differential tests.
//!
//! `bench` measures all classes but `hostile`, and growth; `bench CLASS..` the classes named, `growth` among them. Of a hostile
//! file one call of each is measured, in seconds.

use differential::classes::{self, Class, Subject};
use differential::fast::Judge;
use differential::hostile::{self, Hostile};
use differential::random::Random;
use differential::verdict::Verdict;
use differential::{generate, ground, library, reference};
use std::hint::black_box;
use std::process::ExitCode;
use std::time::Duration;

/// Files drawn for the comparison with the reference.
const DRAWN: u64 = 20_000;
const DRAWN_HOSTILE: u64 = 200;
/// Turns of each judge at a file, and the least time of a turn.
const TURNS: usize = 41;
const TURN: Duration = Duration::from_micros(500);
const LONGEST: Duration = Duration::from_secs(4);
/// The ratio that no class is to pass.
const GOAL: f64 = 1.5;

fn main() -> ExitCode {
    match run() {
        Ok(()) => ExitCode::SUCCESS,
        Err(message) => {
            eprintln!("{message}");
            ExitCode::FAILURE
        }
    }
}

const GROWTH: &str = "growth";
const HOSTILE: &str = "hostile";

fn run() -> Result<(), String> {
    let named: Vec<String> = std::env::args().skip(1).collect();
    let mut judge = Judge::new();
    let mut classes = classes::classes()?;
    let mut series = classes::series();
    test_names(&named, &classes)?;
    let is_named = |name: &str| named.iter().any(|other| other == name);
    if !named.is_empty() {
        classes.retain(|class| is_named(class.name));
        series.retain(|_| is_named(GROWTH));
    }
    check(&mut judge, classes.iter().chain(&series))?;
    if !library::LINKED {
        println!("the library is not linked: its column is that of the reference");
    }
    if !classes.is_empty() {
        print_classes(&mut judge, &classes);
    }
    if !series.is_empty() {
        print_series(&mut judge, &series);
    }
    if is_named(HOSTILE) {
        print_hostile(&mut judge)?;
    }
    Ok(())
}

fn test_names(named: &[String], classes: &[Class]) -> Result<(), String> {
    let known: Vec<&str> = classes.iter().map(|class| class.name).chain([GROWTH, HOSTILE]).collect();
    match named.iter().find(|name| !known.contains(&name.as_str())) {
        None => Ok(()),
        Some(name) => Err(format!("no class {name}; there are: {}", known.join(", "))),
    }
}

// The fast implementation against the reference

fn check<'a>(judge: &mut Judge, classes: impl Iterator<Item = &'a Class>) -> Result<(), String> {
    let mut files = 0;
    for line in ground::lines() {
        agree(judge, &line.name, &line.file, line.lent)?;
        files += 1;
    }
    for subject in classes.flat_map(|class| &class.subjects) {
        agree(judge, &subject.name, &subject.bytes, 1_024)?;
        files += 1;
    }
    for number in 0..DRAWN {
        let drawn = generate::draw(2, number);
        agree(judge, &format!("drawn file {number}"), &drawn.bytes, drawn.flags)?;
        files += 1;
    }
    for number in 0..DRAWN_HOSTILE {
        let file = hostile::draw(&mut Random::for_draw(2, number)).bytes();
        agree(judge, &format!("drawn hostile file {number}"), &file, 1_024)?;
        files += 1;
    }
    println!("the fast implementation agrees with the reference on {files} files");
    Ok(())
}

fn agree(judge: &mut Judge, name: &str, file: &[u8], lent: usize) -> Result<(), String> {
    let (mut ours, mut theirs) = (vec![9; lent], vec![9; lent]);
    let (said, expected) = (judge.judge(file, &mut ours), reference::judge(file, &mut theirs));
    if said != expected || ours != theirs {
        return Err(format!("{name}: {expected} expected, the fast implementation says: {said}"));
    }
    Ok(())
}

// Measuring

/// Nanoseconds for a call of the library and of the fast implementation, and how many times the second the first is. The ratio
/// is that of turns which follow each other, so that it varies less than the times do.
struct Times {
    library: f64,
    fast: f64,
    ratio: f64,
}

/// The processor time of this thread: what else runs on the machine does not count.
fn processor_time() -> Duration {
    #[repr(C)]
    struct Time {
        seconds: i64,
        nanoseconds: i64,
    }
    extern "C" {
        fn clock_gettime(clock: i32, time: *mut Time) -> i32;
    }
    const THREAD_CPUTIME: i32 = 3;
    let mut time = Time { seconds: 0, nanoseconds: 0 };
    // SAFETY: the C library writes one `timespec`, which `Time` is on 64-bit Linux.
    unsafe { clock_gettime(THREAD_CPUTIME, &mut time) };
    Duration::new(time.seconds as u64, time.nanoseconds as u32)
}

fn time(calls: u32, mut call: impl FnMut()) -> Duration {
    let start = processor_time();
    (0..calls).for_each(|_| call());
    processor_time().saturating_sub(start)
}

/// How many calls fill a turn; the first calls are the warm-up.
fn calls_in_turn(mut call: impl FnMut()) -> u32 {
    let mut calls = 1;
    loop {
        let taken = time(calls, &mut call);
        if taken >= TURN || calls >= 1 << 20 {
            return calls;
        }
        calls *= 2;
    }
}

fn median(mut values: Vec<f64>) -> f64 {
    values.sort_by(f64::total_cmp);
    values[values.len() / 2]
}

fn measure(judge: &mut Judge, subject: &Subject) -> Times {
    let mut flags = [0u8; 1_024];
    let mut more_flags = [0u8; 1_024];
    let mut out = [0u64; 4];
    let mut call_library = || {
        black_box(library::plan_judge(black_box(&subject.bytes), &mut flags, &mut out));
    };
    let mut call_fast = || {
        black_box(judge.judge(black_box(&subject.bytes), &mut more_flags));
    };
    let library_calls = calls_in_turn(&mut call_library);
    let fast_calls = calls_in_turn(&mut call_fast);
    let (mut library, mut fast) = (Vec::new(), Vec::new());
    let start = processor_time();
    while library.len() < TURNS && (library.len() < 5 || processor_time() - start < LONGEST) {
        library.push(time(library_calls, &mut call_library).as_nanos() as f64 / f64::from(library_calls));
        fast.push(time(fast_calls, &mut call_fast).as_nanos() as f64 / f64::from(fast_calls));
    }
    let ratios = library.iter().zip(&fast).map(|(library, fast)| library / fast).collect();
    Times { ratio: median(ratios), library: median(library), fast: median(fast) }
}

fn verdict(subject: &Subject) -> Verdict {
    reference::judge(&subject.bytes, &mut [0; 1_024])
}

// Tables

fn print_classes(judge: &mut Judge, classes: &[Class]) {
    println!();
    println!("library: plan_judge, which makes its tables at each call; fast: keeps its tables from call to call");
    println!(
        "{:11} {:36} {:>6} {:>11} {:>11} {:>6}  verdict",
        "class", "file", "bytes", "library ns", "fast ns", "ratio"
    );
    let mut slow = Vec::new();
    for class in classes {
        let (mut library, mut fast) = (0.0, 0.0);
        for subject in &class.subjects {
            let times = measure(judge, subject);
            library += times.library;
            fast += times.fast;
            println!(
                "{:11} {:36} {:6} {:11.0} {:11.0} {:6.2}  {}",
                class.name,
                subject.name,
                subject.bytes.len(),
                times.library,
                times.fast,
                times.ratio,
                verdict(subject)
            );
        }
        let count = class.subjects.len() as f64;
        if class.subjects.len() > 1 {
            println!(
                "{:11} {:36} {:6} {:11.0} {:11.0} {:6.2}",
                class.name,
                "on average",
                "",
                library / count,
                fast / count,
                library / fast
            );
        }
        if library / fast > GOAL {
            slow.push(class.name);
        }
    }
    let met = if slow.is_empty() { "none".to_string() } else { slow.join(", ") };
    println!("classes over {GOAL} times the fast implementation: {met}");
}

fn print_series(judge: &mut Judge, series: &[Class]) {
    println!();
    println!("{:26} {:>6} {:>11} {:>7} {:>11} {:>7}", "doubled", "count", "library ns", "growth", "fast ns", "growth");
    for class in series {
        let mut before: Option<Times> = None;
        for subject in &class.subjects {
            let times = measure(judge, subject);
            let growth = |now: f64, then: fn(&Times) -> f64| {
                before.as_ref().map_or(String::new(), |before| format!("x{:.2}", now / then(before)))
            };
            println!(
                "{:26} {:>6} {:11.0} {:>7} {:11.0} {:>7}",
                class.name,
                subject.name,
                times.library,
                growth(times.library, |times| times.library),
                times.fast,
                growth(times.fast, |times| times.fast)
            );
            before = Some(times);
        }
    }
}

/// The hostile files at the limits, one call each. The verdicts and the flags must agree. Without the library the fast
/// implementation is measured alone: the reference would take hours.
fn print_hostile(judge: &mut Judge) -> Result<(), String> {
    println!();
    println!(
        "{:11} {:36} {:>6} {:>11} {:>11} {:>6}  verdict",
        "class", "file", "bytes", "library s", "fast s", "ratio"
    );
    for Hostile { name, file, .. } in hostile::at_limits() {
        let bytes = file.bytes();
        let (mut flags, mut verdict) = ([0; 1_024], None);
        let fast = time(1, || verdict = Some(judge.judge(black_box(&bytes), &mut flags))).as_secs_f64();
        let library = if library::LINKED { Some(time_library(name, &bytes, verdict, &flags)?) } else { None };
        println!(
            "{HOSTILE:11} {name:36} {:6} {:>11} {fast:11.4} {:>6}  {}",
            bytes.len(),
            library.map_or("-".to_string(), |library| format!("{library:.4}")),
            library.map_or("-".to_string(), |library| format!("{:.2}", library / fast)),
            verdict.map_or(String::new(), |verdict| verdict.to_string())
        );
    }
    Ok(())
}

/// Seconds for a call of the library, which has to give this verdict and leave these flags.
fn time_library(name: &str, bytes: &[u8], expected: Option<Verdict>, expected_flags: &[u8]) -> Result<f64, String> {
    let (mut flags, mut said) = ([0; 1_024], None);
    let seconds = time(1, || said = library::judge(black_box(bytes), &mut flags).ok()).as_secs_f64();
    if said != expected || flags != expected_flags {
        return Err(format!("{name}: the library and the fast implementation differ"));
    }
    Ok(seconds)
}
