//! The heaviest files of the ordinary kind: no more rounds than one, but many types for a head, deep nesting, many
//! alternatives, and all bytes that a file may have.

use crate::case_file::{arrow, constructor, nonterminal, parameter, CaseFile, Node, TypeRecord};
use crate::classes::all_tables;

const STATES: u8 = 16;
const ALL: [u16; 16] = [0, 1, 2, 3, 4, 5, 6, 7, 8, 9, 10, 11, 12, 13, 14, 15];
/// Bindings of the nonterminal whose body is large.
const TESTS: u16 = 4;

const K: usize = 0;
const STEP: usize = 1;
const END: usize = 2;

/// Constructors k of four arguments, step and end, with which every state goes on: a file without rules and bindings.
fn plain(sorts: &[(u16, u16)], nonterminals: &[u16]) -> CaseFile {
    let mut file = CaseFile {
        sorts: sorts.to_vec(),
        constructors: vec![4, 1, 0],
        nonterminals: nonterminals.to_vec(),
        states: STATES,
        types: (0..STATES).map(TypeRecord::State).collect(),
        ..CaseFile::default()
    };
    for state in 0..STATES {
        file.transitions.push([state, K as u8, state, state, state, state]);
        file.transitions.push([state, STEP as u8, 0, 0, 0, 0]);
        file.transitions.push([state, END as u8, 0, 0, 0, 0]);
    }
    file
}

fn push(file: &mut CaseFile, members: &[u16], result: u16) -> u16 {
    file.types.push(arrow(members, result));
    file.types.len() as u16 - 1
}

/// k of four chains, each some nodes again and again and then a last one.
fn four_chains(link: &[Node], length: usize, last: &[Node]) -> Vec<Node> {
    let chain = [link.repeat(length), last.to_vec()].concat();
    [vec![constructor(K, 4)], chain.repeat(4)].concat()
}

fn bind(file: &mut CaseFile, nonterminal: u16, types: impl IntoIterator<Item = u16>) {
    file.bindings.extend(types.into_iter().map(|ty| (nonterminal, ty)));
    file.bindings.sort_unstable();
}

/// Sets of states with the last one in each, which the chains lack.
fn sets_with_last(count: u16) -> impl Iterator<Item = Vec<u16>> {
    (1..=count).map(|bits| (0..15).filter(|&state| bits >> (state % 6) & 1 == 1).chain([15]).collect())
}

/// S = L end, L x = k of chains A (G (A (G .. x))), G x y = step y, where A asks for an arrow to each state but the last, and G
/// has 60 types that lead to each of these arrows: all but one ask for the last state, which no chain has.
pub fn many_types_a_head() -> CaseFile {
    let mut file = plain(&[(0, 0), (1, 0), (0, 1)], &[0, 1, 2, 3]);
    file.rules = vec![
        vec![nonterminal(1, 1), constructor(END, 0)],
        four_chains(&[nonterminal(2, 1), nonterminal(3, 1)], 31, &[parameter(0, 0)]),
        vec![constructor(END, 0)],
        vec![constructor(STEP, 1), parameter(1, 0)],
    ];
    let asked: Vec<u16> = ALL[..15].iter().map(|&state| push(&mut file, &[0], state)).collect();
    let mut types = Vec::new();
    for &result in &asked {
        types.extend(sets_with_last(59).map(|set| push(&mut file, &set, result)));
        types.push(push(&mut file, &[0, 1], result));
    }
    let asking: Vec<u16> = ALL[..15].iter().map(|&state| push(&mut file, &asked, state)).collect();
    let tested: Vec<u16> = (0..TESTS).map(|state| push(&mut file, &ALL[..15], state)).collect();
    bind(&mut file, 0, [0]);
    bind(&mut file, 1, tested);
    bind(&mut file, 2, asking);
    bind(&mut file, 3, types);
    file
}

/// S = N F end, N f x = k of chains f (f (.. x)), F x = step x: f has a type for each state, which asks for all states.
pub fn deep_nesting() -> CaseFile {
    let mut file = plain(&[(0, 0), (1, 1)], &[0, 2, 1]);
    file.rules = vec![
        vec![nonterminal(1, 2), nonterminal(2, 0), constructor(END, 0)],
        four_chains(&[parameter(0, 1)], 62, &[parameter(1, 0)]),
        vec![constructor(STEP, 1), parameter(0, 0)],
    ];
    let functions: Vec<u16> = ALL.iter().map(|&state| push(&mut file, &ALL, state)).collect();
    let tested: Vec<u16> = functions.iter().map(|&rest| push(&mut file, &functions, rest)).collect();
    bind(&mut file, 0, [0]);
    bind(&mut file, 1, tested);
    bind(&mut file, 2, functions);
    file
}

/// S = L end, L x = k of chains F (F (.. x) end) end, F x y = step y. F has 60 types for each state but the last: all but one
/// ask for the last state, which no chain has, and then for states of the second argument.
pub fn many_alternatives() -> CaseFile {
    let mut file = plain(&[(0, 0), (0, 1)], &[0, 1, 2]);
    let chain = [vec![nonterminal(2, 2); 31], vec![parameter(0, 0)], vec![constructor(END, 0); 31]].concat();
    file.rules = vec![
        vec![nonterminal(1, 1), constructor(END, 0)],
        [vec![constructor(K, 4)], chain.repeat(4)].concat(),
        vec![constructor(STEP, 1), parameter(1, 0)],
    ];
    let mut types = Vec::new();
    for state in 0..15 {
        let rest = push(&mut file, &ALL, state);
        types.extend(sets_with_last(59).map(|set| push(&mut file, &set, rest)));
        types.push(push(&mut file, &[0], rest));
    }
    let tested: Vec<u16> = (0..TESTS).map(|state| push(&mut file, &ALL[..15], state)).collect();
    bind(&mut file, 0, [0]);
    bind(&mut file, 1, tested);
    bind(&mut file, 2, types);
    file
}

/// Full tables, and bodies as long as 60,000 bytes allow.
pub fn all_bytes() -> CaseFile {
    let mut file = all_tables(10);
    let mut room = 60_000 - file.bytes().len();
    let rules = file.rules.len();
    for rule in (1..rules).cycle() {
        if room < 8 {
            break;
        }
        file.rules[rule].splice(0..0, [constructor(0, 2), parameter(0, 0)]);
        room -= 8;
    }
    file
}

/// The same with a last binding that does not fit: 11.
pub fn all_bytes_and_a_misfit() -> CaseFile {
    let mut file = all_bytes();
    if let Some(last) = file.bindings.last_mut() {
        last.1 = file.types.len() as u16 - 1;
    }
    file
}
