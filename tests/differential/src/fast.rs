//! The rules of the scope written for speed, without proofs: what the library is measured against.
//!
//! One pass over the records fills fixed arrays and makes the tests 2 to 7, 9 and 11 on the way. The arrays stay with the
//! judge from call to call and are never cleared: counts and stamps tell what belongs to the file in hand. A check keeps
//! what it found for a node and a goal, and notes the bindings that it rests on; after a round only those bindings are tested
//! again that rested on a dropped one, and what served last is tried first. A replay shares the parts of its terms.

mod check;
mod replay;
mod sets;

use crate::verdict::Verdict;
use check::{Found, Hint, FEW, HINTS, OWN_HINTS};
use replay::{Cell, CELLS};
use sets::{Set, WORDS};

/// Kinds from this one on are remarks.
const FIRST_REMARK: usize = 0x8000;
const MOST_NODES: usize = 15_000;
const MOST_SORTS: usize = 64;
const MOST_TYPES: usize = 1_024;
const MOST_BINDINGS: usize = 1_024;

/// Sorts are numbers; a constructor's sort that is not listed is `UNLISTED` and its argument count.
const UNLISTED: u8 = 65;
const SORT_CODES: usize = 70;
const NO_SORT: u8 = 255;

const CONSTRUCTOR: u8 = 0;
const NONTERMINAL: u8 = 1;

/// The result of a state, which has none.
const NONE: u16 = u16::MAX;

/// A node of a body, and the node behind its term, counted within the rule.
#[derive(Clone, Copy)]
struct Node {
    tag: u8,
    count: u8,
    number: u16,
    end: u16,
}

/// A body while its nodes are read.
struct Reading {
    /// Heads whose arguments are being read: what is left of their sort, how many arguments, which node.
    open: [(u8, u8, u8); 64],
    levels: usize,
    /// The sort of the next term.
    wanted: u8,
    right: bool,
    whole: bool,
}

impl Reading {
    /// A head that takes arguments.
    #[inline]
    fn open(&mut self, from: &[u8; SORT_CODES], sort: u8, count: u8, node: usize) {
        self.open[self.levels] = (sort, count, node as u8);
        self.levels += 1;
        self.wanted = from[usize::from(sort)];
        // The argument of a head at level 64 would stand at level 65.
        self.right = self.levels < 64;
    }

    /// A head alone, which may be the last argument of those that are open.
    #[inline]
    fn close(&mut self, from: &[u8; SORT_CODES], to: &[u8; SORT_CODES], nodes: &mut [Node], node: usize) {
        while self.levels > 0 {
            let (sort, count, head) = self.open[self.levels - 1];
            if count > 1 {
                let sort = to[usize::from(sort)];
                self.open[self.levels - 1] = (sort, count - 1, head);
                self.wanted = from[usize::from(sort)];
                return;
            }
            nodes[usize::from(head)].end = node as u16 + 1;
            self.levels -= 1;
        }
        self.whole = true;
    }
}

const SLOTS: usize = 2_048;

/// Number and place.
type Refusal = (u64, usize);

#[derive(Clone, Copy, Default)]
struct Counts {
    sorts: usize,
    constructors: usize,
    nonterminals: usize,
    nodes: usize,
    rules: usize,
    states: u8,
    transitions: usize,
    last_transition: u32,
    listed_states: u32,
    members: usize,
    types: usize,
    bindings: usize,
    last_binding: u32,
    paths: usize,
    path: (usize, usize),
    start_place: usize,
    /// Places of the first body and the first binding at fault, 0 for none: neither can be the first record.
    wrong_body: usize,
    misfit: usize,
}

pub struct Judge {
    now: Counts,
    // sorts
    sort_records: [u32; MOST_SORTS],
    from: [u8; SORT_CODES],
    to: [u8; SORT_CODES],
    arity: [u8; SORT_CODES],
    /// By sort and arguments given: the sort that is left, `NO_SORT` past the last argument.
    left_sorts: [[u8; 9]; SORT_CODES],
    with_from: [u128; SORT_CODES],
    with_to: [u128; SORT_CODES],
    tree_sorts: [u8; 5],
    // the plan
    constructors: [u8; 32],
    nonterminals: [u8; 256],
    first_nodes: [u16; 257],
    nodes: [Node; MOST_NODES],
    /// By constructor: the states that have a transition.
    present: [u16; 32],
    targets: [[[u8; 4]; 32]; 16],
    // the evidence
    type_places: [(u16, u16); MOST_TYPES],
    results: [u16; MOST_TYPES],
    /// The final state of a type.
    ends: [u8; MOST_TYPES],
    members: [u16; 16 * MOST_TYPES],
    first_members: [u16; MOST_TYPES + 1],
    /// The states among the members of a type.
    member_states: [u16; MOST_TYPES],
    fits: [u128; MOST_TYPES],
    slots: [(u64, u16); SLOTS],
    binding_nonterminals: [u8; MOST_BINDINGS],
    binding_types: [u16; MOST_BINDINGS],
    // the bindings by place: by nonterminal, final state and type
    bindings: [u16; MOST_BINDINGS],
    types: [u16; MOST_BINDINGS],
    first_states: [u16; MOST_BINDINGS],
    /// The places of a nonterminal's bindings to a final state, where it has some.
    buckets: [[(u16, u16); 16]; 256],
    /// The final states of a nonterminal's kept bindings.
    bound: [u16; 256],
    kept: [u64; WORDS],
    /// What the last test of a binding rested on, and the bindings that rested on one.
    rows: [Set; MOST_BINDINGS],
    columns: [Set; MOST_BINDINGS],
    /// The bindings that failed in the round in hand.
    failed: [u16; MOST_BINDINGS],
    round: u64,
    later: bool,
    narrow: usize,
    // the test in hand
    stamp: u64,
    tested: usize,
    first: usize,
    /// By parameter: the arrow that takes it, and the states that it has.
    parts: [u16; 8],
    part_states: [u16; 8],
    used: Set,
    found: [Found; 256],
    arrow_stamps: [u64; 256],
    arrows_known: [Set; 256],
    arrows_had: [Set; 256],
    // for all tests
    serving: bool,
    serves: [[u64; WORDS]; MOST_TYPES],
    member_sets: [Set; MOST_TYPES],
    member_set_calls: [u64; MOST_TYPES],
    /// By type: the round and the nonterminal that was asked for its members, and in the lowest bit whether it has them; the
    /// test that noted what serves.
    bare: [u64; MOST_TYPES],
    noted: [u64; MOST_TYPES],
    hints: [Hint; HINTS],
    own_hints: [Hint; OWN_HINTS],
    call: u64,
    // replay
    cells: [[Cell; CELLS]; 2],
}

fn word(bytes: &[u8], at: usize) -> usize {
    usize::from(u16::from_le_bytes([bytes[at], bytes[at + 1]]))
}

impl Judge {
    pub fn new() -> Box<Judge> {
        let cell = Cell { tag: 0, count: 0, number: 0, nodes: 0, arguments: [0; 8] };
        let mut judge = Box::new(Judge {
            now: Counts::default(),
            sort_records: [0; MOST_SORTS],
            from: [0; SORT_CODES],
            to: [0; SORT_CODES],
            arity: [0; SORT_CODES],
            left_sorts: [[NO_SORT; 9]; SORT_CODES],
            with_from: [0; SORT_CODES],
            with_to: [0; SORT_CODES],
            tree_sorts: [0; 5],
            constructors: [0; 32],
            nonterminals: [0; 256],
            first_nodes: [0; 257],
            nodes: [Node { tag: 0, count: 0, number: 0, end: 0 }; MOST_NODES],
            present: [0; 32],
            targets: [[[0; 4]; 32]; 16],
            type_places: [(0, 0); MOST_TYPES],
            results: [0; MOST_TYPES],
            ends: [0; MOST_TYPES],
            members: [0; 16 * MOST_TYPES],
            first_members: [0; MOST_TYPES + 1],
            member_states: [0; MOST_TYPES],
            fits: [0; MOST_TYPES],
            slots: [(0, 0); SLOTS],
            binding_nonterminals: [0; MOST_BINDINGS],
            binding_types: [0; MOST_BINDINGS],
            bindings: [0; MOST_BINDINGS],
            types: [0; MOST_BINDINGS],
            first_states: [0; MOST_BINDINGS],
            buckets: [[(0, 0); 16]; 256],
            bound: [0; 256],
            kept: [0; WORDS],
            rows: [Set::NONE; MOST_BINDINGS],
            columns: [Set::NONE; MOST_BINDINGS],
            failed: [0; MOST_BINDINGS],
            round: 0,
            later: false,
            narrow: FEW,
            stamp: 0,
            tested: 0,
            first: 0,
            parts: [0; 8],
            part_states: [0; 8],
            used: Set::NONE,
            found: [Found { stamp: 0, known: 0, had: 0 }; 256],
            arrow_stamps: [0; 256],
            arrows_known: [Set::NONE; 256],
            arrows_had: [Set::NONE; 256],
            serving: false,
            serves: [[0; WORDS]; MOST_TYPES],
            member_sets: [Set::NONE; MOST_TYPES],
            member_set_calls: [0; MOST_TYPES],
            bare: [0; MOST_TYPES],
            noted: [0; MOST_TYPES],
            hints: [Hint { call: 0, place: 0 }; HINTS],
            own_hints: [Hint { call: 0, place: 0 }; OWN_HINTS],
            call: 0,
            cells: [[cell; CELLS]; 2],
        });
        for arity in 1..=4 {
            judge.arity[usize::from(UNLISTED + arity)] = arity;
        }
        judge.left_sorts[0][0] = 0;
        judge
    }

    pub fn judge(&mut self, file: &[u8], flags: &mut [u8]) -> Verdict {
        match self.examine(file, flags.len()) {
            Err((number, place)) => Verdict::Refused { number, place: place as u64 },
            Ok(()) if self.now.paths == 1 => {
                let (from, to) = self.now.path;
                self.replay(&file[from..to])
            }
            Ok(()) => self.shrink(flags),
        }
    }

    // The file

    fn examine(&mut self, file: &[u8], flags: usize) -> Result<(), Refusal> {
        if file.len() > 60_000 {
            return Err((1, 0));
        }
        self.now = Counts { sorts: 1, ..Counts::default() };
        self.tree_sorts = [0, UNLISTED + 1, UNLISTED + 2, UNLISTED + 3, UNLISTED + 4];
        self.with_from[0] = 0;
        self.with_to[0] = 0;
        self.present = [0; 32];
        self.call += 1;
        self.walk(file)?;
        let now = &self.now;
        if now.states == 0 || now.nonterminals == 0 || now.rules != now.nonterminals {
            return Err((8, 0));
        }
        if self.nonterminals[0] != 0 {
            return Err((9, now.start_place));
        }
        if now.wrong_body != 0 {
            return Err((9, now.wrong_body));
        }
        if now.paths == 1 && now.types + now.bindings > 0 {
            return Err((10, 0));
        }
        if now.misfit != 0 {
            return Err((11, now.misfit));
        }
        if flags < now.bindings {
            return Err((12, 0));
        }
        Ok(())
    }

    /// All records; a remark stops the walk, which goes on behind it.
    fn walk(&mut self, file: &[u8]) -> Result<(), Refusal> {
        let (mut at, mut last_kind) = (0, 1);
        while let Err(((number, place), last)) = self.walk_from(file, at, last_kind) {
            if number != 3 || word(file, place + 2) < FIRST_REMARK {
                return Err((number, place));
            }
            (at, last_kind) = (place + 4 + word(file, place), last);
        }
        Ok(())
    }

    /// The records from a place on, behind one of the kind `last_kind`; with a refusal it gives the last kind.
    fn walk_from(&mut self, file: &[u8], mut at: usize, mut last_kind: usize) -> Result<(), (Refusal, usize)> {
        while at < file.len() {
            let Some(header) = file.get(at..at + 4) else {
                return Err(((2, at), last_kind));
            };
            let (length, kind) = (word(header, 0), word(header, 2));
            let Some(payload) = file.get(at + 4..at + 4 + length) else {
                return Err(((2, at), last_kind));
            };
            if kind < last_kind || kind > 9 {
                return Err(((3, at), last_kind));
            }
            last_kind = kind;
            let entered = match kind {
                1 => self.sort(payload),
                2 => self.constructor(payload),
                3 => self.nonterminal(payload, at),
                4 => self.rule(payload, at),
                5 => self.states(payload),
                6 => self.transition(payload),
                7 => self.ty(file, payload, at),
                8 => self.binding(payload, at),
                _ => self.path(payload, at),
            };
            if let Err(number) = entered {
                return Err(((number, at), last_kind));
            }
            at += 4 + length;
        }
        Ok(())
    }

    fn sort(&mut self, payload: &[u8]) -> Result<(), u64> {
        let Ok(bytes) = <[u8; 4]>::try_from(payload) else {
            return Err(4);
        };
        let count = self.now.sorts;
        let (from, to) = (word(&bytes, 0), word(&bytes, 2));
        if count > MOST_SORTS || (to < count && self.arity[to] == 8) {
            return Err(5);
        }
        if from >= count || to >= count {
            return Err(6);
        }
        let record = u32::from_le_bytes(bytes);
        if self.sort_records[..count - 1].contains(&record) {
            return Err(7);
        }
        self.sort_records[count - 1] = record;
        self.from[count] = from as u8;
        self.to[count] = to as u8;
        let arity = self.arity[to] + 1;
        self.arity[count] = arity;
        self.link(count, to);
        self.with_from[count] = 0;
        self.with_to[count] = 0;
        self.with_from[from] |= 1 << count;
        self.with_to[to] |= 1 << count;
        if arity <= 4 && from == 0 && self.tree_sorts[usize::from(arity) - 1] == to as u8 {
            self.tree_sorts[usize::from(arity)] = count as u8;
        }
        self.now.sorts = count + 1;
        Ok(())
    }

    fn constructor(&mut self, payload: &[u8]) -> Result<(), u64> {
        let &[arity] = payload else {
            return Err(4);
        };
        let count = self.now.constructors;
        if count == 32 {
            return Err(5);
        }
        if arity > 4 {
            return Err(6);
        }
        if count == 0 {
            self.link_tree_sorts();
        }
        self.constructors[count] = arity;
        self.now.constructors = count + 1;
        Ok(())
    }

    /// What is left of a sort that leads to another, by arguments given.
    fn link(&mut self, sort: usize, to: usize) {
        let behind = self.left_sorts[to];
        self.left_sorts[sort][0] = sort as u8;
        self.left_sorts[sort][1..].copy_from_slice(&behind[..8]);
    }

    /// The same for the sorts of constructors, where they are not listed.
    fn link_tree_sorts(&mut self) {
        for arity in 1..=4 {
            let (sort, to) = (usize::from(UNLISTED) + arity, self.tree_sorts[arity - 1]);
            self.to[sort] = to;
            self.link(sort, usize::from(to));
        }
    }

    fn nonterminal(&mut self, payload: &[u8], place: usize) -> Result<(), u64> {
        let &[low, high] = payload else {
            return Err(4);
        };
        let count = self.now.nonterminals;
        if count == 256 {
            return Err(5);
        }
        if high != 0 || usize::from(low) >= self.now.sorts {
            return Err(6);
        }
        if count == 0 {
            self.now.start_place = place;
        }
        self.nonterminals[count] = low;
        self.now.nonterminals = count + 1;
        Ok(())
    }

    fn states(&mut self, payload: &[u8]) -> Result<(), u64> {
        let &[states] = payload else {
            return Err(4);
        };
        if self.now.states != 0 {
            return Err(5);
        }
        if states == 0 || states > 16 {
            return Err(6);
        }
        self.now.states = states;
        Ok(())
    }

    fn transition(&mut self, payload: &[u8]) -> Result<(), u64> {
        let &[state, constructor, a, b, c, d] = payload else {
            return Err(4);
        };
        if self.now.transitions == 512 {
            return Err(5);
        }
        let states = self.now.states;
        if state >= states || usize::from(constructor) >= self.now.constructors {
            return Err(6);
        }
        let targets = [a, b, c, d];
        let arity = usize::from(self.constructors[usize::from(constructor)]);
        for (i, &target) in targets.iter().enumerate() {
            if target >= if i < arity { states } else { 1 } {
                return Err(6);
            }
        }
        let pair = 1 + (u32::from(state) << 8) + u32::from(constructor);
        if pair <= self.now.last_transition {
            return Err(7);
        }
        self.now.last_transition = pair;
        self.present[usize::from(constructor)] |= 1 << state;
        self.targets[usize::from(state)][usize::from(constructor)] = targets;
        self.now.transitions += 1;
        Ok(())
    }

    fn path(&mut self, payload: &[u8], place: usize) -> Result<(), u64> {
        if self.now.paths == 1 || payload.len() > 4_096 {
            return Err(5);
        }
        self.now.paths = 1;
        self.now.path = (place + 4, place + 4 + payload.len());
        Ok(())
    }

    // Bodies

    fn rule(&mut self, payload: &[u8], place: usize) -> Result<(), u64> {
        let length = payload.len();
        if length % 4 != 0 || length == 0 {
            return Err(4);
        }
        if length > 1_024 {
            return Err(5);
        }
        let rule = self.now.rules;
        if rule >= self.now.nonterminals {
            return Err(6);
        }
        if rule == 0 && self.now.constructors == 0 {
            self.link_tree_sorts();
        }
        self.first_nodes[rule] = self.now.nodes as u16;
        let right = self.body(payload, usize::from(self.nonterminals[rule]))?;
        if !right && self.now.wrong_body == 0 {
            self.now.wrong_body = place;
        }
        self.now.nodes += length / 4;
        self.now.rules = rule + 1;
        self.first_nodes[rule + 1] = self.now.nodes as u16;
        Ok(())
    }

    /// Reads the nodes of a body, or gives 6. True if they are exactly one term of sort 0 within 64 levels.
    fn body(&mut self, payload: &[u8], sort: usize) -> Result<bool, u64> {
        let parameters = usize::from(self.arity[sort]);
        let mut parameter_sorts = [0u8; 8];
        let mut rest = sort;
        for parameter in &mut parameter_sorts[..parameters] {
            *parameter = self.from[rest];
            rest = usize::from(self.to[rest]);
        }
        let (constructors, nonterminals) = (self.now.constructors, self.now.nonterminals);
        let nodes = &mut self.nodes[self.now.nodes..self.now.nodes + payload.len() / 4];
        let mut reading = Reading { open: [(0, 0, 0); 64], levels: 0, wanted: 0, right: true, whole: false };
        for (i, bytes) in payload.chunks_exact(4).enumerate() {
            let (tag, count, number) = (bytes[0], bytes[3], word(bytes, 1));
            let entries = match tag {
                0 => constructors,
                1 => nonterminals,
                2 => parameters,
                _ => 0,
            };
            if number >= entries || count > 8 {
                return Err(6);
            }
            nodes[i] = Node { tag, count, number: number as u16, end: i as u16 + 1 };
            let sort = match tag {
                CONSTRUCTOR => self.tree_sorts[usize::from(self.constructors[number])],
                NONTERMINAL => self.nonterminals[number],
                _ => parameter_sorts[number],
            };
            let left = self.left_sorts[usize::from(sort)][usize::from(count)];
            reading.right &= !reading.whole && left == reading.wanted;
            if !reading.right {
                continue;
            }
            if count > 0 {
                reading.open(&self.from, sort, count, i);
            } else {
                reading.close(&self.from, &self.to, nodes, i);
            }
        }
        Ok(reading.right && reading.whole)
    }

    // Types and bindings

    fn ty(&mut self, file: &[u8], payload: &[u8], place: usize) -> Result<(), u64> {
        let length = payload.len();
        if length != 1 && (length % 2 != 0 || length == 0 || length > 34) {
            return Err(4);
        }
        let count = self.now.types;
        if count == MOST_TYPES {
            return Err(5);
        }
        if length == 1 {
            let state = payload[0];
            if state >= self.now.states {
                return Err(6);
            }
            if self.now.listed_states >> state & 1 == 1 {
                return Err(7);
            }
            self.now.listed_states |= 1 << state;
            self.results[count] = NONE;
            self.ends[count] = state;
            self.fits[count] = 1;
        } else {
            self.arrow(file, payload)?;
        }
        self.type_places[count] = (place as u16, length as u16);
        self.first_members[count + 1] = self.now.members as u16;
        self.now.types = count + 1;
        Ok(())
    }

    fn arrow(&mut self, file: &[u8], payload: &[u8]) -> Result<(), u64> {
        let count = self.now.types;
        let result = word(payload, 0);
        if result >= count {
            return Err(6);
        }
        let first = self.now.members;
        self.first_members[count] = first as u16;
        let mut all_fit = u128::MAX;
        let mut states = 0;
        let mut next = first;
        let mut least = 0;
        let mut ascending = true;
        let mut hash = result as u64;
        for bytes in payload[2..].chunks_exact(2) {
            let member = word(bytes, 0);
            if member >= count {
                return Err(6);
            }
            ascending &= member >= least;
            least = member + 1;
            all_fit &= self.fits[member];
            if self.results[member] == NONE {
                states |= 1 << self.ends[member];
            }
            self.members[next] = member as u16;
            hash = (hash.rotate_left(7) ^ member as u64).wrapping_mul(0x9E37_79B9_7F4A_7C15);
            next += 1;
        }
        if !ascending || self.repeats(file, payload, hash) {
            return Err(7);
        }
        self.now.members = next;
        self.results[count] = result as u16;
        self.ends[count] = self.ends[result];
        self.member_states[count] = states;
        let results = union_of(self.fits[result], &self.with_to);
        self.fits[count] = if next == first { results } else { results & union_of(all_fit, &self.with_from) };
        Ok(())
    }

    /// Whether the payload is that of an earlier type; if not, it is remembered.
    fn repeats(&mut self, file: &[u8], payload: &[u8], hash: u64) -> bool {
        let mut slot = (hash >> 40) as usize % SLOTS;
        while self.slots[slot].0 == self.call {
            let (place, length) = self.type_places[usize::from(self.slots[slot].1)];
            if &file[usize::from(place) + 4..][..usize::from(length)] == payload {
                return true;
            }
            slot = (slot + 1) % SLOTS;
        }
        self.slots[slot] = (self.call, self.now.types as u16);
        false
    }

    fn binding(&mut self, payload: &[u8], place: usize) -> Result<(), u64> {
        let Ok(bytes) = <[u8; 4]>::try_from(payload) else {
            return Err(4);
        };
        let count = self.now.bindings;
        if count == MOST_BINDINGS {
            return Err(5);
        }
        let (nonterminal, ty) = (word(&bytes, 0), word(&bytes, 2));
        if nonterminal >= self.now.nonterminals || ty >= self.now.types {
            return Err(6);
        }
        let pair = 1 + ((nonterminal as u32) << 16) + ty as u32;
        if pair <= self.now.last_binding {
            return Err(7);
        }
        self.now.last_binding = pair;
        if self.fits[ty] >> self.nonterminals[nonterminal] & 1 == 0 && self.now.misfit == 0 {
            self.now.misfit = place;
        }
        self.binding_nonterminals[count] = nonterminal as u8;
        self.binding_types[count] = ty as u16;
        self.now.bindings = count + 1;
        Ok(())
    }
}

/// The union of the sets of all sorts in a set.
fn union_of(mut sorts: u128, sets: &[u128; SORT_CODES]) -> u128 {
    let mut union = 0;
    while sorts != 0 {
        union |= sets[sorts.trailing_zeros() as usize];
        sorts &= sorts - 1;
    }
    union
}
