//! Accepted files that take a judge far longer than their size suggests: many questions for each node, asked again in each of
//! many rounds. Each family has its sizes, so that small files of it can be drawn and large ones reach the limits.
//!
//! Notation as in Kobayashi (2009): `F x` has the type {p, q} to r where x with the states p and q gives r. In all families S is
//! the start, and the types of the states come first, so that a state's type has the state's number.

use crate::case_file::{arrow, constructor, nonterminal, parameter, CaseFile, Node, TypeRecord};
use crate::random::Random;
use std::collections::HashMap;

/// The sorts of every file here: o to o; (o to o) to o; (o to o) to o to o; o to o to o; (o to o) to (o to o) to o.
const TREE: u16 = 0;
const FUNCTION: u16 = 1;
const TAKES_FUNCTION: u16 = 2;
const TAKES_FUNCTION_AND_TREE: u16 = 3;
const TAKES_TWO_TREES: u16 = 4;
const TAKES_TWO_FUNCTIONS: u16 = 5;
const SORTS: [(u16, u16); 5] =
    [(TREE, TREE), (FUNCTION, TREE), (FUNCTION, FUNCTION), (TREE, FUNCTION), (FUNCTION, TAKES_FUNCTION)];

/// A hostile file and the rounds that it takes.
pub struct Hostile {
    pub name: &'static str,
    pub file: CaseFile,
    pub rounds: usize,
}

/// The families as large as the limits allow.
pub fn at_limits() -> Vec<Hostile> {
    let short = Ring { a: 1, b: 13, states: 16 };
    let nine = Ring { a: 1, b: 9, states: 16 };
    let middle = Ring { a: 3, b: 7, states: 16 };
    let long = Ring { a: 5, b: 11, states: 16 };
    let heavy = Heavy { group: 15, chains: 3, length: 41 };
    let chains = Chains { count: 4, length: 61 };
    let hostile = |name, rounds, file| Hostile { name, file, rounds };
    vec![
        hostile("one round", 0, one_round(16, 940, Heavy { group: 15, chains: 4, length: 31 })),
        hostile("rounds, 13", short.rounds(), rounds(short, heavy)),
        hostile("rounds, 55", long.rounds(), rounds(long, heavy)),
        hostile("open chain", middle.rounds(), open_chain(middle, 42, 12, chains)),
        hostile("open used", short.rounds(), open_used(short, 36, 12, chains)),
        hostile("own witness", middle.rounds(), own_witness(middle, 660, 8, 3)),
        hostile("long proofs", short.rounds(), long_proofs(short, 40, 12, chains)),
        hostile("partial applications", long.rounds(), partial_applications(long, 5, 31)),
        hostile("moving witness", nine.rounds(), moving_witness(nine, Sets { common: 8, kinds: 3, more: 7 }, 260, 3)),
    ]
}

/// The families in a size that the reference judges at once.
pub fn small() -> Vec<Hostile> {
    let ring = Ring { a: 2, b: 3, states: 7 };
    let heavy = Heavy { group: 4, chains: 3, length: 3 };
    let chains = Chains { count: 4, length: 3 };
    let hostile = |name, rounds, file| Hostile { name, file, rounds };
    vec![
        hostile("one round", 0, one_round(7, 20, heavy)),
        hostile("rounds", ring.rounds(), rounds(ring, heavy)),
        hostile("open chain", ring.rounds(), open_chain(ring, 5, 4, chains)),
        hostile("open used", ring.rounds(), open_used(ring, 5, 4, chains)),
        hostile("own witness", ring.rounds(), own_witness(ring, 20, 3, 2)),
        hostile("long proofs", ring.rounds(), long_proofs(ring, 4, 5, chains)),
        hostile("partial applications", ring.rounds(), partial_applications(ring, 3, 3)),
        hostile("moving witness", ring.rounds(), moving_witness(ring, Sets { common: 2, kinds: 3, more: 2 }, 9, 2)),
    ]
}

/// A small file of one of the families. Now and then a few bindings are left out.
pub fn draw(random: &mut Random) -> CaseFile {
    let ring = Ring::draw(random);
    let states = usize::from(ring.states);
    let heavy = Heavy { group: random.between(1, 4), chains: random.between(1, 3), length: random.between(1, 5) };
    let chains = Chains { count: random.between(1, 4), length: random.between(1, 6) };
    let sets = random.between(1, 5);
    let few = Sets { common: random.between(0, 2), kinds: random.between(1, 3), more: random.between(0, 3) };
    let mut file = match random.below(8) {
        0 => one_round(ring.states, random.between(1, 2 * states), heavy),
        1 => rounds(ring, heavy),
        2 => open_chain(ring, sets, random.between(1, states - 1), chains),
        3 => open_used(ring, sets, random.between(1, states - 1), chains),
        4 => own_witness(ring, random.between(1, 12), states / 2, random.between(0, 2)),
        5 => long_proofs(ring, sets, random.between(1, states - 1), chains),
        6 => partial_applications(ring, sets, chains.length),
        _ => moving_witness(ring, few, random.between(1, 9), random.between(0, 2)),
    };
    if random.percent(30) {
        let share = random.between(1, 20);
        file.bindings.retain(|_| !random.percent(share));
    }
    file
}

// A file that grows

/// A file, and the numbers of its arrow types by result and members.
struct Builder {
    file: CaseFile,
    arrows: HashMap<(u16, Vec<u16>), u16>,
}

impl Builder {
    fn new(states: u8) -> Builder {
        let types = (0..states).map(TypeRecord::State).collect();
        let file = CaseFile { sorts: SORTS.to_vec(), states, types, ..CaseFile::default() };
        Builder { file, arrows: HashMap::new() }
    }

    /// A constructor, and its targets for each state that has a transition.
    fn constructor(&mut self, arity: u8, targets: impl Fn(u8) -> Option<[u8; 4]>) -> usize {
        let number = self.file.constructors.len();
        self.file.constructors.push(arity);
        for state in 0..self.file.states {
            if let Some([a, b, c, d]) = targets(state) {
                let mut fields = [state, number as u8, a, b, c, d];
                fields[2 + usize::from(arity)..].fill(0);
                self.file.transitions.push(fields);
            }
        }
        number
    }

    /// A constructor without arguments that every state allows.
    fn end(&mut self) -> usize {
        self.constructor(0, |_| Some([0; 4]))
    }

    /// A nonterminal, whose number its body may name.
    fn rule(&mut self, sort: u16, body: impl FnOnce(usize) -> Vec<Node>) -> usize {
        let number = self.file.rules.len();
        self.file.nonterminals.push(sort);
        self.file.rules.push(body(number));
        number
    }

    /// The number of an arrow type; it is listed where it is new.
    fn arrow(&mut self, members: &[u16], result: u16) -> u16 {
        let next = self.file.types.len() as u16;
        let number = *self.arrows.entry((result, members.to_vec())).or_insert(next);
        if number == next {
            self.file.types.push(arrow(members, result));
        }
        number
    }

    fn bind(&mut self, nonterminal: usize, types: &[u16]) {
        self.file.bindings.extend(types.iter().map(|&ty| (nonterminal as u16, ty)));
    }

    fn finish(mut self) -> CaseFile {
        self.file.transitions.sort_unstable();
        self.file.bindings.sort_unstable();
        self.file.bindings.dedup();
        self.file
    }
}

/// The start symbol, S = S, which any file can have: it is kept.
fn add_start(builder: &mut Builder) {
    let start = builder.rule(TREE, |start| vec![nonterminal(start, 0)]);
    builder.bind(start, &[0]);
}

// Bindings that fall one by one

/// F x = step (F (turn x)), with types {i, a + j} to q. `step` leads from q to q - 1, and `turn x` has i and a + j where x has
/// i + 1 and a + j + 1, each around its own circle. So each type needs one other, all of them in a ring, and as the last is not
/// bound, one falls in each round.
#[derive(Clone, Copy)]
struct Ring {
    a: usize,
    b: usize,
    states: u8,
}

impl Ring {
    fn draw(random: &mut Random) -> Ring {
        let states = random.between(3, 8);
        let a = random.between(1, states - 1);
        Ring { a, b: random.between(1, states - a), states: states as u8 }
    }

    fn length(self) -> usize {
        least_multiple(least_multiple(self.a, self.b), usize::from(self.states))
    }

    /// All but the last fall.
    fn rounds(self) -> usize {
        self.length() - 1
    }

    /// The types that take {i, a + j} to `results` of q, in the order in which they fall; the last is the one not to be bound.
    fn types(self, builder: &mut Builder, results: &[u16]) -> Vec<u16> {
        let place = |step: usize| (step % self.a, self.a + step % self.b, step % usize::from(self.states));
        let steps = (1..self.length()).chain([0]);
        steps.map(place).map(|(i, j, q)| builder.arrow(&[i as u16, j as u16], results[q])).collect()
    }

    fn step(self, builder: &mut Builder) -> usize {
        builder.constructor(1, |state| Some([self.before(state), 0, 0, 0]))
    }

    /// The state that `step` leads to.
    fn before(self, state: u8) -> u8 {
        (state + self.states - 1) % self.states
    }

    fn turn(self, builder: &mut Builder) -> usize {
        builder.constructor(1, |state| Some([self.next(usize::from(state)) as u8, 0, 0, 0]))
    }

    fn next(self, state: usize) -> usize {
        if state < self.a {
            (state + 1) % self.a
        } else if state < self.a + self.b {
            self.a + (state - self.a + 1) % self.b
        } else {
            state
        }
    }

    /// F alone: its number and its types, of which the last is not bound.
    fn add(self, builder: &mut Builder) -> (usize, Vec<u16>) {
        let (step, turn) = (self.step(builder), self.turn(builder));
        let f = builder
            .rule(FUNCTION, |f| vec![constructor(step, 1), nonterminal(f, 1), constructor(turn, 1), parameter(0, 0)]);
        let states: Vec<u16> = (0..u16::from(self.states)).collect();
        let types = self.types(builder, &states);
        builder.bind(f, &types[..types.len() - 1]);
        (f, types)
    }
}

fn least_multiple(a: usize, b: usize) -> usize {
    (1..=b).map(|count| count * a).find(|multiple| multiple % b == 0).unwrap_or(a * b)
}

/// Sets of `size` of the first `states` states, in order, at most `count` of them.
fn sets_of(states: usize, size: usize, count: usize) -> Vec<Vec<u16>> {
    let mut sets = Vec::new();
    let mut set: Vec<usize> = (0..size).collect();
    while sets.len() < count {
        sets.push(set.iter().map(|&state| state as u16).collect());
        let Some(moved) = (0..size).rev().find(|&i| set[i] + size - i < states) else {
            break;
        };
        set[moved] += 1;
        (moved + 1..size).for_each(|i| set[i] = set[i - 1] + 1);
    }
    sets
}

// Many questions about a head alone

/// Chains P H (P H (.. end)), in which P asks for `group` types of H at a time and one that H lacks.
#[derive(Clone, Copy)]
struct Heavy {
    group: usize,
    chains: usize,
    length: usize,
}

impl Heavy {
    /// P f x = x: its number. H has the types but the last; P has a type for each group of them, then one that asks nothing.
    fn add_p(self, builder: &mut Builder, types: &[u16]) -> usize {
        let p = builder.rule(TAKES_FUNCTION_AND_TREE, |_| vec![parameter(1, 0)]);
        let rest = builder.arrow(&[0], 0);
        if let Some((lacking, held)) = types.split_last() {
            for group in held.chunks(self.group) {
                let ty = builder.arrow(&[group, &[*lacking]].concat(), rest);
                builder.bind(p, &[ty]);
            }
        }
        let last = builder.arrow(&[], rest);
        builder.bind(p, &[last]);
        p
    }

    fn chain(self, p: usize, h: usize, end: usize) -> Vec<Node> {
        let mut nodes = [nonterminal(p, 2), nonterminal(h, 0)].repeat(self.length);
        nodes.push(constructor(end, 0));
        nodes
    }
}

/// H x = k of chains. Each binding of H is tested, and at each P the head H is asked for all its types.
fn one_round(states: u8, count: usize, heavy: Heavy) -> CaseFile {
    let mut builder = Builder::new(states);
    let end = builder.end();
    let k = builder.constructor(heavy.chains as u8, |_| Some([0; 4]));
    builder.rule(TREE, |_| vec![nonterminal(2, 1), constructor(end, 0)]);
    builder.bind(0, &[0]);
    let width = u16::from(states);
    let set = |bits: usize| (0..width).filter(|&state| bits >> state & 1 == 1).collect::<Vec<u16>>();
    let types: Vec<u16> =
        (0..=count).map(|i| builder.arrow(&set(1 + i / usize::from(width)), i as u16 % width)).collect();
    let p = heavy.add_p(&mut builder, &types);
    let h = builder.rule(FUNCTION, |h| {
        let mut body = vec![constructor(k, heavy.chains as u8)];
        (0..heavy.chains).for_each(|_| body.extend(heavy.chain(p, h, end)));
        body
    });
    builder.bind(h, &types[..count]);
    builder.finish()
}

/// H x = k of chains and H (turn x): the ring's bindings are those of H.
fn rounds(ring: Ring, heavy: Heavy) -> CaseFile {
    let mut builder = Builder::new(ring.states);
    let end = builder.end();
    let turn = ring.turn(&mut builder);
    let k = builder.constructor(heavy.chains as u8 + 1, |state| {
        let mut targets = [0; 4];
        targets[heavy.chains] = ring.before(state);
        Some(targets)
    });
    add_start(&mut builder);
    let states: Vec<u16> = (0..u16::from(ring.states)).collect();
    let types = ring.types(&mut builder, &states);
    let p = heavy.add_p(&mut builder, &types);
    let h = builder.rule(FUNCTION, |h| {
        let mut body = vec![constructor(k, heavy.chains as u8 + 1)];
        (0..heavy.chains).for_each(|_| body.extend(heavy.chain(p, h, end)));
        body.extend([nonterminal(h, 1), constructor(turn, 1), parameter(0, 0)]);
        body
    });
    builder.bind(h, &types[..types.len() - 1]);
    builder.finish()
}

// Chains over a parameter

/// `count` chains L (L (.. x)) under one constructor.
#[derive(Clone, Copy)]
struct Chains {
    count: usize,
    length: usize,
}

impl Chains {
    fn nodes(self, k: usize, l: usize) -> Vec<Node> {
        let mut nodes = vec![constructor(k, self.count as u8)];
        for _ in 0..self.count {
            nodes.extend(vec![nonterminal(l, 1); self.length]);
            nodes.push(parameter(0, 0));
        }
        nodes
    }
}

/// How a body names F, whose bindings fall one by one.
enum Naming {
    /// Z F, where Z asks nothing of F.
    Mention,
    /// Q F, where Q has a type for each binding of F, in the order in which they fall.
    Use,
}

/// L x = both (a tree of `inner`) (Z F) or (Q F). Gives the number of L.
fn add_l(builder: &mut Builder, ring: Ring, naming: &Naming, inner: impl FnOnce(usize) -> Vec<Node>) -> usize {
    let both = builder.constructor(2, |state| Some([state, 0, 0, 0]));
    let end = builder.end();
    let (f, types) = ring.add(builder);
    let z = builder.rule(TAKES_FUNCTION, |_| vec![constructor(end, 0)]);
    if let Naming::Use = naming {
        for &ty in &types[..types.len() - 1] {
            let asking = builder.arrow(&[ty], 0);
            builder.bind(z, &[asking]);
        }
    }
    let nothing = builder.arrow(&[], 0);
    builder.bind(z, &[nothing]);
    builder.rule(FUNCTION, |l| {
        let mut body = vec![constructor(both, 2)];
        body.extend(inner(l));
        body.extend([nonterminal(z, 1), nonterminal(f, 0)]);
        body
    })
}

/// Chains of L in which each node has all states but the last, by the types {} to q. Before these L has types that ask for
/// `size` states and the last one.
fn chains_of_l(ring: Ring, naming: &Naming, count: usize, size: usize, chains: Chains) -> CaseFile {
    let mut builder = Builder::new(ring.states);
    add_start(&mut builder);
    let k = builder.constructor(chains.count as u8, |state| Some([state; 4]));
    let last = u16::from(ring.states) - 1;
    let mut types = Vec::new();
    for state in 0..last {
        for set in sets_of(usize::from(last), size, count) {
            types.push(builder.arrow(&[&set[..], &[last]].concat(), state));
        }
    }
    let l = add_l(&mut builder, ring, naming, |l| chains.nodes(k, l));
    types.extend((0..last).map(|state| builder.arrow(&[], state)));
    builder.bind(l, &types);
    builder.finish()
}

/// Each node of the chains has the parameter under it, so that no answer serves for another binding.
fn open_chain(ring: Ring, count: usize, size: usize, chains: Chains) -> CaseFile {
    chains_of_l(ring, &Naming::Mention, count, size, chains)
}

/// The same where each test rests on the binding that falls next.
fn open_used(ring: Ring, count: usize, size: usize, chains: Chains) -> CaseFile {
    chains_of_l(ring, &Naming::Use, count, size, chains)
}

/// Leaves L x under `levels` levels of a constructor; L has `count` types that take a set of `size` states to 0. Each binding
/// has itself alone for its leaves.
fn own_witness(ring: Ring, count: usize, size: usize, levels: usize) -> CaseFile {
    let mut builder = Builder::new(ring.states);
    add_start(&mut builder);
    let k = builder.constructor(4, |_| Some([0; 4]));
    let sets = sets_of(usize::from(ring.states), size, count);
    let types: Vec<u16> = sets.iter().map(|set| builder.arrow(set, 0)).collect();
    let l =
        add_l(&mut builder, ring, &Naming::Mention, |l| tree_of(k, levels, vec![nonterminal(l, 1), parameter(0, 0)]));
    builder.bind(l, &types);
    builder.finish()
}

/// `levels` levels of a constructor of four arguments, with a term for its leaves.
fn tree_of(k: usize, levels: usize, leaf: Vec<Node>) -> Vec<Node> {
    (0..levels).fold(leaf, |below, _| [vec![constructor(k, 4)], below.repeat(4)].concat())
}

// Mixtures

/// Chains in which each node needs `size` states of the next: a proof goes through all of them, for each binding, in each round,
/// though only Q F changes. L has `count` sets for each state; a chain's nodes have those of the last set, and the innermost
/// ones those of the tested binding.
fn long_proofs(ring: Ring, count: usize, size: usize, chains: Chains) -> CaseFile {
    let mut builder = Builder::new(ring.states);
    add_start(&mut builder);
    let k = builder.constructor(chains.count as u8, |state| Some([state; 4]));
    let mut sets = sets_of(usize::from(ring.states), size, count);
    sets.reverse();
    let mut types = Vec::new();
    for state in 0..size as u16 {
        types.extend(sets.iter().map(|set| builder.arrow(set, state)));
    }
    let l = add_l(&mut builder, ring, &Naming::Use, |l| chains.nodes(k, l));
    builder.bind(l, &types);
    builder.finish()
}

/// L x = k of four chains A (G (A (G .. x))). A asks its argument for an arrow of each state; G x y = step (G (turn x) y) has the
/// ring's bindings, which lead to those arrows, so that the first that serves at each node is the next to fall. L has `count` sets,
/// all states but one, for each state.
fn partial_applications(ring: Ring, count: usize, length: usize) -> CaseFile {
    let mut builder = Builder::new(ring.states);
    add_start(&mut builder);
    let end = builder.end();
    let k = builder.constructor(4, |state| Some([state; 4]));
    let (step, turn) = (ring.step(&mut builder), ring.turn(&mut builder));
    let g = builder.rule(TAKES_TWO_TREES, |g| {
        let argument = [constructor(turn, 1), parameter(0, 0), parameter(1, 0)];
        [&[constructor(step, 1), nonterminal(g, 2)], &argument[..]].concat()
    });
    let states: Vec<u16> = (0..u16::from(ring.states)).collect();
    let asked: Vec<u16> = states.iter().map(|&state| builder.arrow(&[0], state)).collect();
    let falling = ring.types(&mut builder, &asked);
    builder.bind(g, &falling[..falling.len() - 1]);
    let a = builder.rule(TAKES_FUNCTION, |_| vec![constructor(end, 0)]);
    let asking: Vec<u16> = states.iter().map(|&state| builder.arrow(&asked, state)).collect();
    let nothing: Vec<u16> = states.iter().map(|&state| builder.arrow(&[], state)).collect();
    builder.bind(a, &asking);
    builder.bind(a, &nothing);
    let l = builder.rule(FUNCTION, |_| {
        let mut body = vec![constructor(k, 4)];
        for _ in 0..4 {
            body.extend([nonterminal(a, 1), nonterminal(g, 1)].repeat(length));
            body.push(parameter(0, 0));
        }
        body
    });
    for set in sets_of(states.len(), states.len() - 1, count) {
        let types: Vec<u16> = states.iter().map(|&state| builder.arrow(&set, state)).collect();
        builder.bind(l, &types);
    }
    builder.finish()
}

/// Sets of types of functions: `common` that all sets have, one of `kinds`, and any of `more`.
#[derive(Clone, Copy)]
struct Sets {
    common: usize,
    kinds: usize,
    more: usize,
}

impl Sets {
    /// The types that the sets consist of.
    fn types(self, builder: &mut Builder) -> Vec<u16> {
        let states = builder.file.states as usize;
        let count = self.common + self.kinds + self.more;
        (0..count).map(|i| builder.arrow(&[(i % states) as u16], (i / states) as u16)).collect()
    }

    /// A set of a kind, with those of the others that `bits` name.
    fn set(self, types: &[u16], kind: usize, bits: usize) -> Vec<u16> {
        let first = self.common + self.kinds;
        let more = (0..self.more).filter(|i| bits >> i & 1 == 1).map(|i| types[first + i]);
        types[..self.common].iter().copied().chain([types[self.common + kind]]).chain(more).collect()
    }
}

/// L f = k of leaves G f F. G has a type for each kind of set and each binding of F, in the order in which these fall, and they
/// fail where the kind is another, at its last member, or where the binding has fallen. So in each round what served last serves
/// no more, for any binding, and what serves next stands behind all that no longer does.
fn moving_witness(ring: Ring, sets: Sets, count: usize, levels: usize) -> CaseFile {
    let mut builder = Builder::new(ring.states);
    add_start(&mut builder);
    let end = builder.end();
    let k = builder.constructor(4, |_| Some([0; 4]));
    let (f, falling) = ring.add(&mut builder);
    let types = sets.types(&mut builder);
    let g = builder.rule(TAKES_TWO_FUNCTIONS, |_| vec![constructor(end, 0)]);
    for &ty in &falling[..falling.len() - 1] {
        let rest = builder.arrow(&[ty], 0);
        for kind in 0..sets.kinds {
            let asking = builder.arrow(&sets.set(&types, kind, 0), rest);
            builder.bind(g, &[asking]);
        }
    }
    let rest = builder.arrow(&[], 0);
    let nothing = builder.arrow(&[], rest);
    builder.bind(g, &[nothing]);
    let leaf = vec![nonterminal(g, 2), parameter(0, 0), nonterminal(f, 0)];
    let l = builder.rule(TAKES_FUNCTION, |_| tree_of(k, levels, leaf));
    for i in 0..count.min(sets.kinds << sets.more) {
        let ty = builder.arrow(&sets.set(&types, i % sets.kinds, i / sets.kinds), 0);
        builder.bind(l, &[ty]);
    }
    builder.finish()
}
