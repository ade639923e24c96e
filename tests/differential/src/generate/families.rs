//! Plans of certain shapes that drawing at random would miss: many rounds, and deep bodies under types of many members.

use crate::case_file::{CaseFile, Node, TypeRecord, CONSTRUCTOR, NONTERMINAL, PARAMETER};
use crate::random::Random;
use std::collections::BTreeSet;

/// A ring of nonterminals in which each binding needs the next one. If the last of them fails, each round drops one.
pub fn ring(random: &mut Random) -> CaseFile {
    let most = 1 << random.between(1, 10);
    let states = random.between(1, most.min(16));
    let count = (most / states).clamp(1, 256);
    let mut order: Vec<u16> = (0..count as u16).collect();
    for i in (1..count).rev() {
        order.swap(i, random.below(i + 1));
    }
    let mut rules = vec![Vec::new(); count];
    for (i, &nonterminal) in order.iter().enumerate() {
        let next = Node { tag: NONTERMINAL, number: order[(i + 1) % count], count: 0 };
        let last = i + 1 == count;
        let through = |number| vec![Node { tag: CONSTRUCTOR, number, count: 1 }, next];
        rules[usize::from(nonterminal)] = if last {
            through(0)
        } else if random.percent(30) {
            through(1)
        } else {
            vec![next]
        };
    }
    let closed = random.percent(20);
    let mut transitions = Vec::new();
    for state in 0..states as u8 {
        let last = usize::from(state) + 1 == states;
        if !last || closed {
            transitions.push([state, 0, if last { 0 } else { state + 1 }, 0, 0, 0]);
        }
        transitions.push([state, 1, state, 0, 0, 0]);
    }
    let mut bindings: Vec<(u16, u16)> =
        (0..count as u16).flat_map(|nonterminal| (0..states as u16).map(move |state| (nonterminal, state))).collect();
    if random.percent(20) {
        bindings.remove(random.below(bindings.len()));
    }
    CaseFile {
        constructors: vec![1, 1],
        nonterminals: vec![0; count],
        rules,
        states: states as u8,
        transitions,
        types: (0..states as u8).map(TypeRecord::State).collect(),
        bindings,
        ..CaseFile::default()
    }
}

fn draw_members(random: &mut Random, from: usize, to: usize, most: usize) -> Vec<u16> {
    let members: BTreeSet<u16> = (0..random.between(0, most)).map(|_| random.between(from, to - 1) as u16).collect();
    members.into_iter().collect()
}

/// S is N F end, N f x is f (f (.. x)), F x is step x, with types of many members for f.
pub fn nested(random: &mut Random) -> CaseFile {
    let node = |tag, number, count| Node { tag, number, count };
    let depth = random.between(1, 63);
    let mut body = vec![node(PARAMETER, 0, 1); depth];
    body.push(node(PARAMETER, 1, 0));
    let states = random.between(1, 6);
    let density = random.between(60, 100);
    let mut transitions = Vec::new();
    for state in 0..states as u8 {
        if random.percent(density) {
            transitions.push([state, 0, random.below(states) as u8, 0, 0, 0]);
        }
        if random.percent(density) {
            transitions.push([state, 1, 0, 0, 0, 0]);
        }
    }

    let mut types: Vec<TypeRecord> = (0..states as u8).map(TypeRecord::State).collect();
    let mut known = BTreeSet::new();
    let mut arrow = |types: &mut Vec<TypeRecord>, result: u16, members: Vec<u16>| {
        if known.insert((result, members.clone())) {
            types.push(TypeRecord::Arrow { result, members });
        }
    };
    for _ in 0..random.between(1, 16) {
        let members = draw_members(random, 0, states, 3);
        arrow(&mut types, random.below(states) as u16, members);
    }
    let functions = states..types.len();
    for _ in 0..random.between(1, 4) {
        let members = draw_members(random, 0, states, states);
        arrow(&mut types, random.below(states) as u16, members);
    }
    let rests = functions.start..types.len();
    for _ in 0..random.between(1, 8) {
        let members = draw_members(random, functions.start, functions.end, 16);
        arrow(&mut types, random.between(rests.start, rests.end - 1) as u16, members);
    }

    let mut bindings = vec![(0, 0)];
    bindings.extend((rests.end..types.len()).map(|ty| (1, ty as u16)));
    bindings.extend(rests.map(|ty| (2, ty as u16)));
    CaseFile {
        sorts: vec![(0, 0), (1, 1)],
        constructors: vec![1, 0],
        nonterminals: vec![0, 2, 1],
        rules: vec![
            vec![node(NONTERMINAL, 1, 2), node(NONTERMINAL, 2, 0), node(CONSTRUCTOR, 1, 0)],
            body,
            vec![node(CONSTRUCTOR, 0, 1), node(PARAMETER, 0, 0)],
        ],
        states: states as u8,
        transitions,
        types,
        bindings,
        path: None,
    }
}
