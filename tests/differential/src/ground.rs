//! The lines of the scope that say what a file is answered: the ground case E and its variants, and the small inputs of the
//! table of refusals; and lines of the change requests.

use crate::case_file::{bytes_of, CaseFile, Node, Record, TypeRecord, CONSTRUCTOR, FIRST_REMARK, NONTERMINAL, PARAMETER};

/// A file, the flags lent for it, the line that it is answered with, and the flags that it leaves.
#[derive(Clone)]
pub struct Line {
    pub name: String,
    pub file: Vec<u8>,
    pub lent: usize,
    pub answer: &'static str,
    pub flags: &'static [u8],
}

/// E as the scope prints it.
const E: [u8; 154] = [
    0x04, 0x00, 0x01, 0x00, 0x00, 0x00, 0x00, 0x00, 0x01, 0x00, 0x02, 0x00, 0x02, 0x01, 0x00, 0x02, 0x00, 0x01, 0x01,
    0x00, 0x02, 0x00, 0x01, 0x01, 0x00, 0x02, 0x00, 0x00, 0x02, 0x00, 0x03, 0x00, 0x00, 0x00, 0x02, 0x00, 0x03, 0x00,
    0x01, 0x00, 0x08, 0x00, 0x04, 0x00, 0x01, 0x01, 0x00, 0x01, 0x00, 0x03, 0x00, 0x00, 0x18, 0x00, 0x04, 0x00, 0x00,
    0x00, 0x00, 0x02, 0x02, 0x00, 0x00, 0x00, 0x00, 0x01, 0x00, 0x01, 0x00, 0x02, 0x00, 0x01, 0x01, 0x01, 0x00, 0x01,
    0x02, 0x00, 0x00, 0x00, 0x01, 0x00, 0x05, 0x00, 0x02, 0x06, 0x00, 0x06, 0x00, 0x00, 0x00, 0x00, 0x00, 0x00, 0x00,
    0x06, 0x00, 0x06, 0x00, 0x00, 0x01, 0x01, 0x00, 0x00, 0x00, 0x06, 0x00, 0x06, 0x00, 0x00, 0x03, 0x00, 0x00, 0x00,
    0x00, 0x06, 0x00, 0x06, 0x00, 0x01, 0x02, 0x00, 0x00, 0x00, 0x00, 0x01, 0x00, 0x07, 0x00, 0x00, 0x04, 0x00, 0x07,
    0x00, 0x00, 0x00, 0x00, 0x00, 0x04, 0x00, 0x08, 0x00, 0x00, 0x00, 0x00, 0x00, 0x04, 0x00, 0x08, 0x00, 0x01, 0x00,
    0x01, 0x00,
];

const BR: u16 = 0;
const OPEN: u16 = 1;
const CLOSE: u16 = 2;
const END: u16 = 3;
const S: u16 = 0;
const F: u16 = 1;

fn constructor(number: u16, count: u8) -> Node {
    Node { tag: CONSTRUCTOR, number, count }
}

fn nonterminal(number: u16, count: u8) -> Node {
    Node { tag: NONTERMINAL, number, count }
}

fn parameter(number: u16) -> Node {
    Node { tag: PARAMETER, number, count: 0 }
}

/// E by its entries: S is F end; F x is br x (open (close (F x))).
pub fn e() -> CaseFile {
    let f = vec![
        constructor(BR, 2),
        parameter(0),
        constructor(OPEN, 1),
        constructor(CLOSE, 1),
        nonterminal(F, 1),
        parameter(0),
    ];
    CaseFile {
        sorts: vec![(0, 0)],
        constructors: vec![2, 1, 1, 0],
        nonterminals: vec![0, 1],
        rules: vec![vec![nonterminal(F, 1), constructor(END, 0)], f],
        states: 2,
        transitions: vec![[0, 0, 0, 0, 0, 0], [0, 1, 1, 0, 0, 0], [0, 3, 0, 0, 0, 0], [1, 2, 0, 0, 0, 0]],
        types: vec![TypeRecord::State(0), TypeRecord::Arrow { result: 0, members: vec![0] }],
        bindings: vec![(S, 0), (F, 1)],
        path: None,
    }
}

/// E with type 2, which takes the empty set to type 0, and with these bindings.
fn e_with_t2(bindings: &[(u16, u16)]) -> CaseFile {
    let mut file = e();
    file.types.push(TypeRecord::Arrow { result: 0, members: Vec::new() });
    file.bindings = bindings.to_vec();
    file
}

fn e_with_bindings(bindings: &[(u16, u16)]) -> CaseFile {
    CaseFile { bindings: bindings.to_vec(), ..e() }
}

/// A file with a path in the place of its types and bindings.
pub fn with_path(file: CaseFile, path: &[u8]) -> CaseFile {
    CaseFile { types: Vec::new(), bindings: Vec::new(), path: Some(path.to_vec()), ..file }
}

/// E with F x as br x (open (F x)).
pub fn b() -> CaseFile {
    let mut file = e();
    file.rules[1] = vec![constructor(BR, 2), parameter(0), constructor(OPEN, 1), nonterminal(F, 1), parameter(0)];
    file
}

/// E's other records; S is H end, H x is H (open (open x)).
pub fn g() -> CaseFile {
    let mut file = e();
    file.rules[1] = vec![nonterminal(F, 1), constructor(OPEN, 1), constructor(OPEN, 1), parameter(0)];
    file
}

/// S is S, without constructors, with one state and the binding (S, T0).
pub fn s_is_s() -> CaseFile {
    CaseFile {
        nonterminals: vec![0],
        rules: vec![vec![nonterminal(S, 0)]],
        states: 1,
        types: vec![TypeRecord::State(0)],
        bindings: vec![(S, 0)],
        ..CaseFile::default()
    }
}

/// All lines.
pub fn lines() -> Vec<Line> {
    let mut lines = bindings();
    lines.extend(paths());
    lines.extend(refusals());
    lines.extend(remarks());
    lines
}

fn line(name: &str, file: Vec<u8>, answer: &'static str, flags: &'static [u8]) -> Line {
    Line { name: name.to_string(), file, lent: 16, answer, flags }
}

fn bindings() -> Vec<Line> {
    let added = e_with_t2(&[(S, 0), (F, 1), (F, 2)]);
    let only = e_with_t2(&[(S, 0), (F, 2)]);
    vec![
        line("E", E.to_vec(), "proved 2 of 2 rounds 0", &[1, 1]),
        line("E by its entries", e().bytes(), "proved 2 of 2 rounds 0", &[1, 1]),
        line("E with T2 and (F, T2) added", added.bytes(), "proved 2 of 3 rounds 1", &[1, 1, 0]),
        line("E with T2, (S, T0) and (F, T2) only", only.bytes(), "unproved 0 of 2 rounds 2", &[0, 0]),
        line("E without bindings", e_with_bindings(&[]).bytes(), "unproved 0 of 0 rounds 0", &[]),
        line("E with (F, T1) only", e_with_bindings(&[(F, 1)]).bytes(), "unproved 1 of 1 rounds 0", &[1]),
        line("S is S", s_is_s().bytes(), "proved 1 of 1 rounds 0", &[1]),
        line("B with E's bindings", b().bytes(), "unproved 0 of 2 rounds 2", &[0, 0]),
    ]
}

fn paths() -> Vec<Line> {
    let path = |name, file, letters: &[u8], answer| line(name, with_path(file, letters).bytes(), answer, &[]);
    vec![
        path("B, path 0 0 2 1 0", b(), &[0, 0, 2, 1, 0], "refuted letters 5 state 1 constructor 0"),
        path("B, path 0 0 2 1", b(), &[0, 0, 2, 1], "refused 15 at 4"),
        path("B, path 0 0 2 1 0 1", b(), &[0, 0, 2, 1, 0, 1], "refused 13 at 5"),
        path("B, path 0 0 3", b(), &[0, 0, 3], "refused 13 at 2"),
        path("G, 2,048 zeros", g(), &[0; 2_048], "refused 15 at 2048"),
        path("G, 2,049 zeros", g(), &[0; 2_049], "refused 14 at 2048"),
        path("S is S, 4,096 zeros", s_is_s(), &[0; 4_096], "refused 15 at 4096"),
        path("S is S, 4,097 zeros", s_is_s(), &[0; 4_097], "refused 5 at 19"),
    ]
}

fn refusals() -> Vec<Line> {
    let mut last_twice = E.to_vec();
    last_twice.extend(&E[146..]);
    let mut body = e();
    body.rules[0] = vec![constructor(END, 1)];
    let mut both = E.to_vec();
    both.extend([0, 0, 9, 0]);
    let constructors = CaseFile { constructors: vec![0; 33], ..CaseFile::default() };
    let refusal = |name, file, answer| line(name, file, answer, &[]);
    vec![
        refusal("60,001 zero bytes", vec![0; 60_001], "refused 1 at 0"),
        refusal("01 00 02", vec![1, 0, 2], "refused 2 at 0"),
        refusal("00 00 0A 00", vec![0, 0, 10, 0], "refused 3 at 0"),
        refusal("00 00 05 00", vec![0, 0, 5, 0], "refused 4 at 0"),
        refusal("a 33rd constructor", constructors.bytes(), "refused 5 at 160"),
        refusal("01 00 02 00 05", vec![1, 0, 2, 0, 5], "refused 6 at 0"),
        refusal("E's last record twice", last_twice, "refused 7 at 154"),
        refusal("the empty file", Vec::new(), "refused 8 at 0"),
        refusal("E, first body 00 03 00 01", body.bytes(), "refused 9 at 40"),
        refusal("E, then 00 00 09 00", both, "refused 10 at 0"),
        refusal("E with (0, 1) for (0, 0)", e_with_bindings(&[(S, 1), (F, 1)]).bytes(), "refused 11 at 138"),
        Line { lent: 1, ..refusal("E with one flag byte", E.to_vec(), "refused 12 at 0") },
        refusal("E, path 01", with_path(e(), &[1]).bytes(), "refused 13 at 0"),
        refusal("G, 2,049 zeros", with_path(g(), &[0; 2_049]).bytes(), "refused 14 at 2048"),
        refusal("E, path of no letters", with_path(e(), &[]).bytes(), "refused 15 at 0"),
    ]
}

/// A record with a payload of so many bytes.
fn record(kind: u16, length: usize) -> Vec<u8> {
    bytes_of(&[Record { kind, payload: vec![3; length] }])
}

/// E with a remark before the first record, behind the last and between every two: each of them in a file of its own, and all in
/// one file.
fn e_with_remarks(kind: u16, length: usize) -> Vec<Line> {
    let records: Vec<Vec<u8>> = e().records().into_iter().map(|one| bytes_of(&[one])).collect();
    let remark = record(kind, length);
    let answer = |name: &str, file| line(name, file, "proved 2 of 2 rounds 0", &[1, 1]);
    let mut lines: Vec<Line> = (0..=records.len())
        .map(|place| {
            let (before, behind) = records.split_at(place);
            let file = [before.concat(), remark.clone(), behind.concat()].concat();
            answer(&format!("E, a remark of {length} bytes before record {place}"), file)
        })
        .collect();
    if length < 2 {
        let file = [remark.clone(), records.join(&remark[..]), remark].concat();
        lines.push(answer(&format!("E, a remark of {length} bytes everywhere"), file));
    }
    lines
}

/// Request 1: kinds from 8000 (hexadecimal) on are remarks.
fn remarks() -> Vec<Line> {
    let e_and = |more: &[u8]| [&E, more].concat();
    let loop_and = |more: &[u8]| [&s_is_s().bytes(), more].concat();
    let refusal = |name, file, answer| line(name, file, answer, &[]);
    let (empty, longest) = (record(FIRST_REMARK, 0), 60_000 - E.len() - 4);
    let mut lines = [
        e_with_remarks(FIRST_REMARK, 0),
        e_with_remarks(0x8001, 1),
        e_with_remarks(0xFFFF, longest),
    ]
    .concat();
    lines.extend([
        line("500 remarks, then E", [empty.repeat(500), E.to_vec()].concat(), "proved 2 of 2 rounds 0", &[1, 1]),
        line("S is S and 59,846 bytes", loop_and(&record(0xFFFF, 59_846)), "proved 1 of 1 rounds 0", &[1]),
        refusal("E and 59,846 bytes", e_and(&record(0xFFFF, 59_846)), "refused 1 at 0"),
        refusal("E and a byte too many", e_and(&record(0xFFFF, longest + 1)), "refused 1 at 0"),
        refusal("E and a remark past the end", e_and(&[0xFF, 0xFF, 0xFF, 0xFF]), "refused 2 at 154"),
        refusal("E and half a header of a remark", e_and(&[0, 0, 0]), "refused 2 at 154"),
        refusal("E and kind 7FFF", e_and(&record(0x7FFF, 0)), "refused 3 at 154"),
        refusal("kinds 2, remark, 1", [record(2, 1), empty.clone(), record(1, 4)].concat(), "refused 3 at 9"),
        refusal("remarks only", [empty, record(0xFFFF, 3)].concat(), "refused 8 at 0"),
    ]);
    lines
}
