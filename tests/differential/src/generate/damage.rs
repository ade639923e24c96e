//! Files with a fault: one of a certain kind put in on purpose, or bytes and records changed at random.

use crate::case_file::{bytes_of, CaseFile, Node, Record, TypeRecord, CONSTRUCTOR, NONTERMINAL};
use crate::random::Random;

/// The kind of the states record, of which a file has one.
const STATES: u16 = 5;

/// Puts a fault into a file.
pub fn damage(random: &mut Random, mut file: CaseFile) -> Vec<u8> {
    match random.below(100) {
        0..=29 => {
            for _ in 0..random.between(1, 3) {
                spoil_entry(random, &mut file);
            }
            file.bytes()
        }
        30..=59 => {
            let mut records = file.records();
            for _ in 0..random.between(1, 2) {
                spoil_records(random, &mut records);
            }
            bytes_of(&records)
        }
        60..=68 => {
            let kind = pass_limit(random, &mut file);
            let mut records = file.records();
            if kind == STATES {
                records.extend(records.iter().find(|record| record.kind == STATES).cloned());
                records.sort_by_key(|record| record.kind);
            }
            // A record at fault by two numbers shows which is tested first.
            for _ in 0..random.below(3) {
                spoil_last(random, &mut records, kind);
            }
            bytes_of(&records)
        }
        69 => pass_length(random, &file.bytes()),
        _ => {
            let mut bytes = file.bytes();
            for _ in 0..random.between(1, 3) {
                spoil_bytes(random, &mut bytes);
            }
            bytes
        }
    }
}

/// A byte near another, or any.
fn other_byte(random: &mut Random, byte: u8) -> u8 {
    match random.below(5) {
        0 => byte.wrapping_add(1),
        1 => byte.wrapping_sub(1),
        2 => 0,
        3 => byte ^ (1 << random.below(8)),
        _ => random.byte(),
    }
}

fn other_word(random: &mut Random, word: u16) -> u16 {
    match random.below(5) {
        0 => word.wrapping_add(1),
        1 => word.wrapping_sub(1),
        2 => random.below(8) as u16,
        3 => random.below(300) as u16,
        _ => random.word() as u16,
    }
}

fn spoil_bytes(random: &mut Random, bytes: &mut Vec<u8>) {
    if bytes.is_empty() {
        bytes.push(random.byte());
        return;
    }
    let at = random.below(bytes.len());
    match random.below(10) {
        0..=5 => bytes[at] = other_byte(random, bytes[at]),
        6 => bytes.truncate(at),
        7 => {
            bytes.remove(at);
        }
        8 => bytes.insert(at, random.byte()),
        _ => {
            let other = random.below(bytes.len());
            bytes.swap(at, other);
        }
    }
}

fn spoil_records(random: &mut Random, records: &mut Vec<Record>) {
    if records.is_empty() {
        records.push(Record { kind: random.below(11) as u16, payload: vec![0; random.below(8)] });
        return;
    }
    let at = random.below(records.len());
    match random.below(10) {
        0 => {
            let other = random.below(records.len());
            records.swap(at, other);
        }
        1 => {
            let next = (at + 1) % records.len();
            records.swap(at, next);
        }
        2 | 3 => records.insert(at, records[at].clone()),
        4 => {
            let copy = records[at].clone();
            let end = records.iter().rposition(|record| record.kind == copy.kind).unwrap_or(at);
            records.insert(end + 1, copy);
        }
        5 => {
            records.remove(at);
        }
        6 => records[at].kind = other_word(random, records[at].kind),
        7 => {
            let length = random.below(records[at].payload.len() + 3);
            records[at].payload.resize(length, 0);
        }
        8 => {
            let kind = records[at].kind;
            records.retain(|record| record.kind != kind);
        }
        _ => {
            let field = random.below(records[at].payload.len());
            if let Some(&byte) = records[at].payload.get(field) {
                records[at].payload[field] = other_byte(random, byte);
            }
        }
    }
}

/// Changes one entry so that a certain test may be met.
fn spoil_entry(random: &mut Random, file: &mut CaseFile) {
    match random.below(12) {
        0..=4 => spoil_plan(random, file),
        5 => drop_part(random, file),
        6 => mix_evidence(random, file),
        7 | 8 => spoil_type(random, file),
        9 => {
            let at = random.below(file.transitions.len());
            if let Some(fields) = file.transitions.get_mut(at) {
                let field = random.below(6);
                fields[field] = other_byte(random, fields[field]);
            }
        }
        _ => spoil_binding(random, file),
    }
}

fn spoil_plan(random: &mut Random, file: &mut CaseFile) {
    match random.below(5) {
        0 => file.nonterminals.iter_mut().take(1).for_each(|sort| *sort = random.below(4) as u16),
        1 => {
            let at = random.below(file.sorts.len());
            if let Some(sort) = file.sorts.get_mut(at) {
                *sort = (other_word(random, sort.0), other_word(random, sort.1));
            }
        }
        2 => {
            let rule = random.below(file.rules.len());
            if let Some(body) = file.rules.get_mut(rule) {
                *body = deep_body(random, &file.constructors);
            }
        }
        _ => spoil_body(random, file),
    }
}

/// Changes a result or a member, or lets the members fall.
fn spoil_type(random: &mut Random, file: &mut CaseFile) {
    let at = random.below(file.types.len());
    let Some(TypeRecord::Arrow { result, members }) = file.types.get_mut(at) else {
        return;
    };
    if random.percent(50) {
        members.reverse();
        return;
    }
    let field = random.below(members.len() + 1);
    let word = members.get_mut(field).unwrap_or(result);
    *word = other_word(random, *word);
}

/// Gives a binding another type, or other numbers.
fn spoil_binding(random: &mut Random, file: &mut CaseFile) {
    let (at, ty) = (random.below(file.bindings.len()), random.below(file.types.len()));
    let Some(binding) = file.bindings.get_mut(at) else {
        return;
    };
    if random.percent(50) {
        *binding = (other_word(random, binding.0), other_word(random, binding.1));
        return;
    }
    binding.1 = ty as u16;
    file.bindings.sort_unstable();
}

/// Changes a node of a body, takes one out, doubles one or exchanges two.
fn spoil_body(random: &mut Random, file: &mut CaseFile) {
    let rule = random.below(file.rules.len());
    let Some(body) = file.rules.get_mut(rule) else {
        return;
    };
    let at = random.below(body.len());
    match random.below(7) {
        0 => body[at].count = random.below(9) as u8,
        1 => body[at].number = other_word(random, body[at].number),
        2 => body[at].tag = random.below(4) as u8,
        3 => body.insert(at, body[at]),
        4 if body.len() > 1 => {
            body.remove(at);
        }
        5 => {
            let other = random.below(body.len());
            let (one, two) = (body[at], body[other]);
            body[at] = Node { count: one.count, ..two };
            body[other] = Node { count: two.count, ..one };
        }
        _ => body.push(Node { tag: CONSTRUCTOR, number: random.below(4) as u16, count: 0 }),
    }
}

/// A constructor of one argument over itself, 63 to 66 levels deep.
fn deep_body(random: &mut Random, constructors: &[u8]) -> Vec<Node> {
    let Some(number) = constructors.iter().position(|&arity| arity == 1) else {
        return vec![Node { tag: NONTERMINAL, number: 0, count: 0 }];
    };
    let mut body = vec![Node { tag: CONSTRUCTOR, number: number as u16, count: 1 }; random.between(62, 65)];
    body.push(Node { tag: NONTERMINAL, number: 0, count: 0 });
    body
}

fn drop_part(random: &mut Random, file: &mut CaseFile) {
    match random.below(5) {
        0 => file.states = 0,
        1 => file.nonterminals.clear(),
        2 => {
            file.rules.pop();
        }
        3 => file.rules.clear(),
        _ => {
            file.nonterminals.pop();
        }
    }
    if random.percent(60) {
        // Without these a missing entry is met as 8, not as 6 of a later record.
        if file.states == 0 {
            file.transitions.clear();
            file.types.clear();
        }
        if file.nonterminals.is_empty() {
            file.rules.clear();
        }
        file.bindings.clear();
    }
}

/// Types or bindings together with a path.
fn mix_evidence(random: &mut Random, file: &mut CaseFile) {
    if file.path.is_none() {
        file.path = Some((0..random.below(4)).map(|_| random.below(3) as u8).collect());
    }
    if file.types.is_empty() {
        file.types.push(TypeRecord::State(0));
    }
}

/// Changes the last record of a kind: its length, a byte, or a copy of it behind it.
fn spoil_last(random: &mut Random, records: &mut Vec<Record>, kind: u16) {
    let Some(last) = records.iter().rposition(|record| record.kind == kind) else {
        return;
    };
    let payload = &mut records[last].payload;
    match random.below(4) {
        0 => {
            let length = (payload.len() + random.below(5)).saturating_sub(2);
            payload.resize(length, 0);
        }
        1 | 2 => {
            let at = random.below(payload.len());
            if let Some(byte) = payload.get_mut(at) {
                *byte = if random.percent(50) { 255 } else { other_byte(random, *byte) };
            }
        }
        _ => records.insert(last, records[last].clone()),
    }
}

/// One entry, one node, one member or one letter more than a limit allows, or exactly as many. Gives the kind.
fn pass_limit(random: &mut Random, file: &mut CaseFile) -> u16 {
    let more = usize::from(random.percent(70));
    let limit = random.below(14);
    match limit {
        0 => file.constructors.resize(32 + more, 0),
        1 => long_sort(file, more),
        2 => many_sorts(file, more),
        3 => file.nonterminals.resize(256 + more, 0),
        4 | 5 => {
            let rule = file.rules.len().saturating_sub(1);
            if let Some(body) = file.rules.get_mut(rule) {
                body.resize(256 + more, Node { tag: NONTERMINAL, number: 0, count: 0 });
            }
        }
        6 => file.rules.push(vec![Node { tag: NONTERMINAL, number: 0, count: 0 }; 256 + more]),
        7 => file.states = if more == 1 { 16 } else { 17 },
        8 => many_transitions(file, more),
        9 => many_types(file, more),
        10 => many_members(file, more),
        11 => many_bindings(file, more),
        _ => {
            file.types.clear();
            file.bindings.clear();
            file.path = Some(vec![0; 4_096 + more]);
        }
    }
    [2, 1, 1, 3, 4, 4, 4, STATES, 6, 7, 7, 8, 9, 9][limit]
}

/// A sort of eight arguments, or of nine.
fn long_sort(file: &mut CaseFile, more: usize) {
    let mut to = 0;
    for _ in 0..8 + more {
        let known = file.sorts.iter().position(|&sort| sort == (0, to));
        let place = known.unwrap_or(file.sorts.len());
        if known.is_none() {
            file.sorts.push((0, to));
        }
        to = place as u16 + 1;
    }
}

fn many_sorts(file: &mut CaseFile, more: usize) {
    let pairs = (0..64u16).map(|from| (from, 0));
    let new: Vec<(u16, u16)> = pairs.filter(|pair| !file.sorts.contains(pair)).collect();
    for pair in new {
        if file.sorts.len() < 64 && usize::from(pair.0) <= file.sorts.len() {
            file.sorts.push(pair);
        }
    }
    if more == 1 {
        file.sorts.push((1, 1));
    }
}

fn many_transitions(file: &mut CaseFile, more: usize) {
    file.states = 16;
    file.constructors.resize(32, 0);
    file.transitions.clear();
    for state in 0..16 {
        for constructor in 0..32 {
            file.transitions.push([state, constructor, 0, 0, 0, 0]);
        }
    }
    if more == 1 {
        file.transitions.push([0; 6]);
    }
}

/// A type of 16 members, or of 17, of the types listed before it and perhaps of some that are not.
fn many_members(file: &mut CaseFile, more: usize) {
    file.path = None;
    file.types.push(TypeRecord::Arrow { result: 0, members: (0..16 + more as u16).collect() });
}

fn many_types(file: &mut CaseFile, more: usize) {
    file.path = None;
    if file.types.is_empty() {
        file.types.push(TypeRecord::State(0));
    }
    while file.types.len() < 1_024 + more {
        let last = file.types.len() as u16 - 1;
        file.types.push(TypeRecord::Arrow { result: last, members: Vec::new() });
    }
    repeat_free(file);
}

/// Takes out types without members that an earlier record equals, by giving them the first type as a member.
fn repeat_free(file: &mut CaseFile) {
    let mut seen = std::collections::HashSet::new();
    for record in &mut file.types {
        if let TypeRecord::Arrow { result, members } = record {
            if members.is_empty() && !seen.insert(*result) {
                members.push(0);
            }
        }
    }
}

fn many_bindings(file: &mut CaseFile, more: usize) {
    file.path = None;
    file.bindings.clear();
    if file.types.is_empty() {
        file.types.push(TypeRecord::State(0));
    }
    file.nonterminals.resize(256, 0);
    for nonterminal in 0..=256 {
        for ty in 0..4 {
            if file.bindings.len() < 1_024 + more {
                file.bindings.push((nonterminal.min(255), ty.min(file.types.len() as u16 - 1)));
            }
        }
    }
}

/// A file longer than 60,000 bytes, or just not.
fn pass_length(random: &mut Random, bytes: &[u8]) -> Vec<u8> {
    let mut long = bytes.to_vec();
    let length = match random.below(10) {
        0..=3 => 60_001,
        4..=7 => random.between(60_001, 60_100),
        _ => random.between(59_990, 60_000),
    };
    if random.percent(3) {
        long.resize(random.between(60_001, 200_000), 0);
    } else {
        long.resize(length.max(bytes.len()), random.below(3) as u8);
    }
    long
}
