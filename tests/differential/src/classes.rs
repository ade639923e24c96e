//! The files that are measured, by class, and files that double in one respect.

use crate::case_file::{arrow, constructor, nonterminal, parameter, CaseFile, TypeRecord};
use crate::notation::case_file;
use crate::{ground, heaviest};

/// A file to measure.
pub struct Subject {
    pub name: String,
    pub bytes: Vec<u8>,
}

impl Subject {
    fn new(name: impl Into<String>, file: &CaseFile) -> Subject {
        Subject { name: name.into(), bytes: file.bytes() }
    }
}

/// Subjects of one class.
pub struct Class {
    pub name: &'static str,
    pub subjects: Vec<Subject>,
}

pub fn classes() -> Result<Vec<Class>, String> {
    let class = |name, subjects| Class { name, subjects };
    Ok(vec![
        class("small", small()?),
        class("typical", dispatches()?),
        class(
            "large",
            vec![
                Subject::new("tables at their limits, short bodies", &all_tables(1)),
                Subject::new("tables at their limits, 22 nodes", &all_tables(10)),
            ],
        ),
        class("many rounds", vec![Subject::new("256 rounds", &ring(256)), Subject::new("1,024 rounds", &ring(1_024))]),
        class(
            "nested",
            vec![
                Subject::new("64 levels, 8 members, holds", &nested(64, 8, true)),
                Subject::new("64 levels, 8 members, fails", &nested(64, 8, false)),
                Subject::new("64 levels, 256 bindings of a head", &choices(64)),
            ],
        ),
        class(
            "long path",
            vec![
                Subject::new("4,096 letters at 4,096 nodes", &long_path(4_096, 11)),
                Subject::new("4,096 letters at 512 nodes", &long_path(4_096, 8)),
                Subject::new("2,048 letters growing to 4,096", &ground::with_path(ground::g(), &[0; 2_048])),
            ],
        ),
        class(
            "validation",
            vec![
                Subject::new("60,000 bytes of rules", &rules_of_60000_bytes()),
                Subject::new("1,024 types of 16 members", &many_types(1_024)),
            ],
        ),
        class(
            "heaviest",
            vec![
                Subject::new("900 types of a head, partly applied", &heaviest::many_types_a_head()),
                Subject::new("4 chains of 64 levels, 16 members", &heaviest::deep_nesting()),
                Subject::new("900 alternatives of a head", &heaviest::many_alternatives()),
                Subject::new("60,000 bytes", &heaviest::all_bytes()),
                Subject::new("60,000 bytes, a misfit", &heaviest::all_bytes_and_a_misfit()),
            ],
        ),
    ])
}

/// Series in which one measure doubles from file to file.
pub fn series() -> Vec<Class> {
    let doubled = |name, sizes: &[usize], file: &dyn Fn(usize) -> CaseFile| Class {
        name,
        subjects: sizes.iter().map(|&size| Subject::new(size.to_string(), &file(size))).collect(),
    };
    vec![
        doubled("rules of 50 nodes", &[16, 32, 64, 128, 256], &|count| many_rules(count, 50)),
        doubled("types of 16 members", &[64, 128, 256, 512, 1_024], &many_types),
        doubled("bindings", &[64, 128, 256, 512, 1_024], &kept_bindings),
        doubled("rounds", &[64, 128, 256, 512, 1_024], &ring),
        doubled("depth, 8 members", &[8, 16, 32, 64], &|depth| nested(depth, 8, true)),
        doubled("depth, 8 members, fails", &[8, 16, 32, 64], &|depth| nested(depth, 8, false)),
        doubled("letters at 4,096 nodes", &[256, 512, 1_024, 2_048, 4_096], &|letters| long_path(letters, 11)),
        doubled("letters at 8 nodes", &[256, 512, 1_024, 2_048, 4_096], &|letters| long_path(letters, 2)),
    ]
}

/// E, and the schemes of the papers.
fn small() -> Result<Vec<Subject>, String> {
    let mut subjects = vec![Subject::new("E", &ground::e())];
    subjects.extend(papers_examples()?);
    Ok(subjects)
}

/// Dispatch plans of some floors.
fn dispatches() -> Result<Vec<Subject>, String> {
    [4, 12, 40].iter().map(|&floors| Ok(Subject::new(format!("a dispatch of {floors} floors"), &dispatch(floors)?))).collect()
}

/// A lift that is called from floor to floor: it goes up or down some floors, opens, takes in loads, closes. The doors are closed
/// in state 0 and open in state 1. Of the bindings offered, those that have it move or load in the wrong state are dropped.
fn dispatch(floors: usize) -> Result<CaseFile, String> {
    let mut text = String::from(
        "constructor br 2
         constructor up 1
         constructor down 1
         constructor open 1
         constructor close 1
         constructor load 1
         constructor end 0
         rule S : o = Call0 end
         rule Up k : o > o = up k
         rule Down k : o > o = down k
         rule Wait k : o > o = br k (Wait k)
         rule Go move k : (o > o) > o > o = br (move k) (move (Go move k))
         states 2
         transition 0 br 0 0
         transition 0 up 0
         transition 0 down 0
         transition 0 open 1
         transition 0 end
         transition 1 br 1 1
         transition 1 close 0
         transition 1 load 1
         binding S : 0
         binding Up : 0 > 0
         binding Up : 1 > 1
         binding Down : 0 > 0
         binding Down : 1 > 1
         binding Wait : 0 > 0
         binding Wait : 1 > 1
         binding Go : (0 > 0) > 0 > 0
         binding Go : (1 > 1) > 1 > 1
         binding Go : (0 > 0) & (1 > 1) > 0 & 1 > 0\n",
    );
    for floor in 0..floors {
        let (next, way) = ((floor + 1) % floors, if floor + 1 < floors { "Up" } else { "Down" });
        text += &format!(
            "rule Call{floor} k : o > o = br (Go {way} (Stop{floor} (Call{next} k))) (Wait k)
             rule Stop{floor} k : o > o = open (Doors{floor} (close k))
             rule Doors{floor} k : o > o = br k (load (Doors{floor} k))
             binding Call{floor} : 0 > 0
             binding Call{floor} : 1 > 1
             binding Stop{floor} : 0 > 0
             binding Doors{floor} : 0 > 0
             binding Doors{floor} : 1 > 1\n"
        );
    }
    case_file(&text)
}

/// Schemes that Kobayashi (2009, 2011) prints in full, with bindings that prove them or a path that refutes them.
fn papers_examples() -> Result<Vec<Subject>, String> {
    let examples = [
        (
            "Kobayashi 2011, example 1",
            "constructor a 2
             constructor b 1
             constructor c 0
             rule S : o = F b c
             rule F f x : (o > o) > o > o = a (f x) (F f (f x))
             states 2
             transition 0 a 0 0
             transition 0 b 1
             transition 0 c
             transition 1 b 1
             transition 1 c
             binding S : 0
             binding F : (1 > 1) & (1 > 0) > 1 > 0",
        ),
        (
            "Kobayashi 2009, example 2.1",
            "constructor a 2
             constructor b 1
             constructor c 0
             rule S : o = F c
             rule F x : o > o = a x (F (b x))
             states 2
             transition 0 a 0 0
             transition 0 b 1
             transition 0 c
             transition 1 b 1
             transition 1 c
             binding S : 0
             binding F : 0 & 1 > 0",
        ),
        (
            "Kobayashi 2009, example 2.3",
            "constructor br 2
             constructor e 0
             constructor fail 0
             rule S : o = br (F1 e) (F0 e)
             rule F1 k : o > o = G1 k
             rule F0 k : o > o = G1 k
             rule G1 k : o > o = k
             rule G0 k : o > o = fail
             states 1
             transition 0 br 0 0
             transition 0 e
             binding S : 0
             binding F1 : 0 > 0
             binding F0 : 0 > 0
             binding G1 : 0 > 0
             binding G0 : T > 0",
        ),
        (
            "Kobayashi 2009, example 3.1",
            "constructor a 2
             constructor b 1
             constructor c 0
             rule S : o = F (F c)
             rule F x : o > o = a x (b (F x))
             states 2
             transition 0 a 0 0
             transition 0 b 1
             transition 0 c
             transition 1 b 1
             transition 1 c
             path 0 0 2 1 0",
        ),
        (
            "Kobayashi 2009, file",
            "constructor br 2
             constructor c 1
             constructor r 1
             constructor d 0
             constructor e 0
             rule S : o = G d e
             rule G x k : o > o > o = br (c k) (r (G x k))
             states 2
             transition 0 br 0 0
             transition 0 c 1
             transition 0 r 0
             transition 1 e
             binding S : 0
             binding G : T > 1 > 0",
        ),
        (
            "Kobayashi 2009, flow",
            "constructor flow 1
             constructor end 0
             rule S : o = C1 Id
             rule Id x k : (o > o) > ((o > o) > o) > o = k x
             rule C1 id : ((o > o) > ((o > o) > o) > o) > o = id Lam (C2 id)
             rule C2 id unused : ((o > o) > ((o > o) > o) > o) > (o > o) > o = id LamPrime C3
             rule C3 x : (o > o) > o = x end
             rule Lam x : o > o = flow x
             rule LamPrime x : o > o = x
             states 1
             transition 0 end
             binding S : 0
             binding Id : (0 > 0) > ((0 > 0) > 0) > 0
             binding Id : T > (T > 0) > 0
             binding C1 : ((0 > 0) > ((0 > 0) > 0) > 0) & (T > (T > 0) > 0) > 0
             binding C2 : ((0 > 0) > ((0 > 0) > 0) > 0) > T > 0
             binding C3 : (0 > 0) > 0
             binding LamPrime : 0 > 0",
        ),
        (
            "Kobayashi 2009, exception",
            "constructor br 2
             constructor uncaught 0
             constructor end 0
             rule S : o = G uncaught uncaught end
             rule G failure0 failure1 k : o > o > o > o = F k failure1 k
             rule F failure0 failure1 k : o > o > o > o = br k (Failwith0 failure0 failure1 k)
             rule Failwith0 failure0 failure1 k : o > o > o > o = failure0
             rule Failwith1 failure0 failure1 k : o > o > o > o = failure1
             states 1
             transition 0 br 0 0
             transition 0 end
             binding S : 0
             binding G : T > T > 0 > 0
             binding F : 0 > T > 0 > 0
             binding Failwith0 : 0 > T > T > 0
             binding Failwith1 : T > 0 > T > 0",
        ),
    ];
    examples.iter().map(|(name, text)| Ok(Subject::new(*name, &case_file(text)?))).collect()
}

/// 64 sorts, 32 constructors, 256 nonterminals, 512 transitions, 1,024 types and 1,024 bindings; all but three hold.
pub fn all_tables(levels: usize) -> CaseFile {
    let mut file = CaseFile {
        sorts: vec![(0, 0)],
        constructors: vec![2; 32],
        nonterminals: vec![1; 256],
        states: 16,
        ..CaseFile::default()
    };
    // Sorts 2 to 64 take one of the first eight to another.
    for to in 0..8 {
        for from in 0..8 {
            if (from, to) != (0, 0) {
                file.sorts.push((from, to));
            }
        }
    }
    file.nonterminals[0] = 0;
    // F x is br x (br x (.. (G x))), with two nodes for each level and two more.
    for rule in 0..256 {
        let x = if rule == 0 { nonterminal(0, 0) } else { parameter(0, 0) };
        let mut nodes = Vec::new();
        for level in 0..levels {
            nodes.extend([constructor((rule + level) % 32, 2), x]);
        }
        nodes.extend([nonterminal(1 + rule % 255, 1), x]);
        file.rules.push(nodes);
    }
    for state in 0..16 {
        for constructor in 0..32 {
            file.transitions.push([state, constructor, state, state, 0, 0]);
        }
    }
    file.types.extend((0..16).map(TypeRecord::State));
    // {q} to q, then sets of more states to q: all hold.
    file.types.extend((0..16).map(|state| arrow(&[state], state)));
    for set in 1..16u16 {
        for state in 0..16 {
            let mut members = vec![state];
            members.extend((0..set).map(|next| (state + 1 + next) % 16));
            members.sort_unstable();
            members.dedup();
            file.types.push(arrow(&members, state));
        }
    }
    while file.types.len() < 1_024 {
        let last = file.types.len() as u16 - 1;
        file.types.push(arrow(&[last - 2, last - 1, last], last));
    }
    file.bindings.push((0, 0));
    for rule in 1..256 {
        file.bindings.extend((16..20).map(|ty| (rule, ty)));
    }
    file.bindings.extend((20..23).map(|ty| (255, ty)));
    file
}

/// As many bindings as rounds: each needs the next, and the last fails.
fn ring(rounds: usize) -> CaseFile {
    let states = (rounds / 64).max(1);
    let count = rounds / states;
    let mut file = CaseFile {
        constructors: vec![1],
        nonterminals: vec![0; count],
        states: states as u8,
        types: (0..states as u8).map(TypeRecord::State).collect(),
        ..CaseFile::default()
    };
    for rule in 0..count {
        let next = nonterminal((rule + 1) % count, 0);
        file.rules.push(if rule + 1 == count { vec![constructor(0, 1), next] } else { vec![next] });
    }
    file.transitions = (1..states as u8).map(|state| [state - 1, 0, state, 0, 0, 0]).collect();
    for rule in 0..count as u16 {
        file.bindings.extend((0..states as u16).map(|ty| (rule, ty)));
    }
    file
}

/// Bindings that all hold, four of each nonterminal.
fn kept_bindings(count: usize) -> CaseFile {
    let mut file = all_tables(10);
    let rules = count / 4;
    file.nonterminals.truncate(rules);
    file.rules.truncate(rules);
    for (rule, body) in file.rules.iter_mut().enumerate() {
        if let Some(head) = body.iter_mut().rev().nth(1) {
            head.number = (1 + rule % (rules - 1)) as u16;
        }
    }
    file.types.truncate(64);
    file.bindings.retain(|&(rule, ty)| usize::from(rule) < rules && ty < 20);
    file
}

/// S is N F end, N f x is f (f (.. x)): the types of f take all states to each. It holds if F and the last x do.
fn nested(depth: usize, members: u16, holds: bool) -> CaseFile {
    let states = members;
    let mut body = vec![parameter(0, 1); depth - 1];
    body.push(parameter(1, 0));
    let mut file = CaseFile {
        sorts: vec![(0, 0), (1, 1)],
        constructors: vec![1, 0],
        nonterminals: vec![0, 2, 1],
        rules: vec![
            vec![nonterminal(1, 2), nonterminal(2, 0), constructor(1, 0)],
            body,
            vec![constructor(0, 1), parameter(0, 0)],
        ],
        states: states as u8,
        ..CaseFile::default()
    };
    let all: Vec<u16> = (0..states).collect();
    for state in 0..states as u8 {
        file.transitions.push([state, 0, state, 0, 0, 0]);
        file.transitions.push([state, 1, 0, 0, 0, 0]);
    }
    file.types = (0..states as u8).map(TypeRecord::State).collect();
    file.types.extend(all.iter().map(|&state| arrow(&all, state)));
    let functions: Vec<u16> = (states..2 * states).collect();
    // Without the last state for x each way down fails at its end.
    let given = if holds { &all[..] } else { &all[..all.len() - 1] };
    let rest = if holds {
        states
    } else {
        file.types.push(arrow(given, 0));
        2 * states
    };
    file.types.push(arrow(&functions, rest));
    let whole = file.types.len() as u16 - 1;
    file.bindings = vec![(0, 0), (1, whole)];
    file.bindings.extend(functions.iter().map(|&ty| (2, ty)));
    file
}

/// S is F (F (.. end)), where F has 256 types that lead to each state, by sets of states.
fn choices(depth: usize) -> CaseFile {
    let states = 8;
    let mut body = vec![nonterminal(1, 1); depth - 1];
    body.push(constructor(1, 0));
    let mut file = CaseFile {
        sorts: vec![(0, 0)],
        constructors: vec![1, 0],
        nonterminals: vec![0, 1],
        rules: vec![body, vec![constructor(0, 1), parameter(0, 0)]],
        states: states as u8,
        types: (0..states as u8).map(TypeRecord::State).collect(),
        ..CaseFile::default()
    };
    for state in 0..states as u8 {
        file.transitions.push([state, 0, (state + 1) % 8, 0, 0, 0]);
    }
    for set in 0..256u16 {
        let members: Vec<u16> = (0..states).filter(|state| set >> state & 1 == 1).collect();
        file.types.push(arrow(&members, set % states));
    }
    file.bindings = vec![(0, 0)];
    file.bindings.extend((states..states + 256).map(|ty| (1, ty)));
    file
}

/// Doubles an argument `doublings` times, then unfolds K x to K x. The path ends there: 15.
fn long_path(letters: usize, doublings: usize) -> CaseFile {
    let loops = doublings + 1;
    let mut file = CaseFile {
        sorts: vec![(0, 0)],
        constructors: vec![2, 0],
        nonterminals: vec![1; doublings + 2],
        states: 1,
        path: Some(vec![0; letters]),
        ..CaseFile::default()
    };
    file.nonterminals[0] = 0;
    file.rules.push(vec![nonterminal(1, 1), constructor(1, 0)]);
    for rule in 1..=doublings {
        file.rules.push(vec![nonterminal(rule + 1, 1), constructor(0, 2), parameter(0, 0), parameter(0, 0)]);
    }
    file.rules.push(vec![nonterminal(loops, 1), parameter(0, 0)]);
    file.transitions = vec![[0, 0, 0, 0, 0, 0], [0, 1, 0, 0, 0, 0]];
    file
}

/// `count` rules, all but the first of `nodes` nodes, and no bindings.
fn many_rules(count: usize, nodes: usize) -> CaseFile {
    let mut file = CaseFile {
        sorts: vec![(0, 0), (0, 1), (1, 2)],
        constructors: vec![2, 1, 0],
        nonterminals: vec![0],
        rules: vec![vec![constructor(2, 0)]],
        states: 1,
        ..CaseFile::default()
    };
    (1..count).for_each(|_| add_rule(&mut file, nodes));
    file
}

/// F f x y is br (f (open (open x))) (br .. (F f x (open .. y))), with at least five nodes.
fn add_rule(file: &mut CaseFile, nodes: usize) {
    let mut body = Vec::new();
    for _ in 0..(nodes - 4) / 5 {
        let argument = [parameter(0, 1), constructor(1, 1), constructor(1, 1), parameter(1, 0)];
        body.push(constructor(0, 2));
        body.extend(argument);
    }
    body.extend([nonterminal(file.rules.len(), 3), parameter(0, 0), parameter(1, 0)]);
    while body.len() + 1 < nodes {
        body.push(constructor(1, 1));
    }
    body.push(parameter(2, 0));
    file.nonterminals.push(3);
    file.rules.push(body);
}

/// Rules of 256 nodes and one more, up to 60,000 bytes.
fn rules_of_60000_bytes() -> CaseFile {
    let mut file = many_rules(58, 256);
    let room = 60_000 - file.bytes().len();
    add_rule(&mut file, (room - 10) / 4);
    file
}

/// `count` types, all but the states with 16 members, and no bindings.
fn many_types(count: usize) -> CaseFile {
    let mut file = CaseFile {
        sorts: vec![(0, 0)],
        nonterminals: vec![0],
        rules: vec![vec![nonterminal(0, 0)]],
        states: 16,
        types: (0..16).map(TypeRecord::State).collect(),
        ..CaseFile::default()
    };
    let all: Vec<u16> = (0..16).collect();
    while file.types.len() < count {
        let result = file.types.len() as u16 - 16;
        file.types.push(arrow(&all, result));
    }
    file
}
