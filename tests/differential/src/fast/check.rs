//! Rounds and the check: each test notes the bindings that it rests on, and only those are tested again that rested on a dropped
//! one.

use super::sets::{bits_in, Set, Span, WORDS};
use super::{Judge, Node, CONSTRUCTOR, NONE, NONTERMINAL};
use crate::verdict::Verdict;

/// The binding that served last for a node and a goal, in the call whose number has these low bits: a hint of another call
/// would make calls for one file faster than they are.
#[derive(Clone, Copy)]
pub struct Hint {
    pub call: u16,
    pub place: u16,
}

/// Cells of hints.
pub const HINTS: usize = 1 << 15;
pub const OWN_HINTS: usize = 1 << 18;
/// A bucket of so many bindings is gone through without hints, in as many rounds; later one of one.
pub const FEW: usize = 8;

/// States that a node was asked for in the test with the stamp, and those of them that it has.
#[derive(Clone, Copy)]
pub struct Found {
    pub stamp: u64,
    pub known: u16,
    pub had: u16,
}

impl Judge {
    // Rounds

    pub(super) fn shrink(&mut self, flags: &mut [u8]) -> Verdict {
        let total = self.now.bindings;
        self.place_bindings();
        self.begin_rounds();
        flags[..total].fill(1);
        let mut count = self.first_round();
        let mut kept = total;
        let mut rounds = 0;
        while count > 0 {
            kept -= count;
            rounds += 1;
            for &place in &self.failed[..count] {
                flags[usize::from(self.bindings[usize::from(place)])] = 0;
            }
            count = self.later_round(count, rounds);
        }
        let (kept, total) = (kept as u64, total as u64);
        if self.bound[0] & 1 == 1 {
            Verdict::Proved { kept, total, rounds }
        } else {
            Verdict::Unproved { kept, total, rounds }
        }
    }

    /// Orders the bindings by nonterminal, final state and type: those of a nonterminal and a final state are its bucket.
    fn place_bindings(&mut self) {
        let total = self.now.bindings;
        let mut end = 0;
        for nonterminal in 0..self.now.nonterminals {
            let first = end;
            let mut counts = [0u16; 16];
            let mut bound = 0;
            while end < total && usize::from(self.binding_nonterminals[end]) == nonterminal {
                let state = self.ends[usize::from(self.binding_types[end])];
                counts[usize::from(state)] += 1;
                bound |= 1 << state;
                end += 1;
            }
            self.bound[nonterminal] = bound;
            let mut from = first as u16;
            for state in bits_in(u64::from(bound)) {
                let to = from + counts[state];
                self.buckets[nonterminal][state] = (from, to);
                counts[state] = from;
                from = to;
            }
            for binding in first..end {
                let ty = self.binding_types[binding];
                let next = &mut counts[usize::from(self.ends[usize::from(ty)])];
                let place = usize::from(*next);
                *next += 1;
                self.bindings[place] = binding as u16;
                self.types[place] = ty;
                self.first_states[place] = self.member_states[usize::from(ty)];
            }
        }
    }

    fn begin_rounds(&mut self) {
        let total = self.now.bindings;
        self.kept = [0; WORDS];
        (0..total).for_each(|place| self.kept[place / 64] |= 1 << (place % 64));
        self.serving = false;
        self.later = false;
        self.narrow = FEW;
        self.round += 1;
    }

    /// Tests all bindings; lists those that fail, and gives their number.
    fn first_round(&mut self) -> usize {
        let mut count = 0;
        for place in 0..self.now.bindings {
            if !self.holds(place) {
                self.failed[count] = place as u16;
                count += 1;
            }
        }
        if count > 0 {
            self.fill_columns();
            self.later = true;
        }
        count
    }

    /// Drops what failed in the round before, tests what rested on it, and lists what fails.
    fn later_round(&mut self, count: usize, rounds: u64) -> usize {
        let mut lost = Set::NONE;
        let mut touched = Set::NONE;
        for i in 0..count {
            let place = usize::from(self.failed[i]);
            self.drop_binding(place);
            lost.put(place);
            touched.join(&self.columns[place]);
        }
        self.round += 1;
        if rounds > FEW as u64 {
            self.narrow = 1;
        }
        let mut count = 0;
        for word in bits_in(u64::from(touched.full)) {
            for bit in bits_in(touched.words[word] & self.kept[word]) {
                let place = word * 64 + bit;
                if self.rows[place].meets(&lost) && !self.holds(place) {
                    self.failed[count] = place as u16;
                    count += 1;
                }
            }
        }
        count
    }

    /// Drops a binding from all that is gone through; a final state that no kept binding has goes too.
    fn drop_binding(&mut self, place: usize) {
        let (word, bit) = (place / 64, 1 << (place % 64));
        self.kept[word] &= !bit;
        let mut ty = self.types[place];
        let state = usize::from(self.ends[usize::from(ty)]);
        if self.serving {
            while self.results[usize::from(ty)] != NONE {
                self.serves[usize::from(ty)][word] &= !bit;
                ty = self.results[usize::from(ty)];
            }
        }
        let nonterminal = usize::from(self.binding_nonterminals[place]);
        let (from, to) = self.buckets[nonterminal][state];
        if Span::new((from, to)).next(&self.kept).is_none() {
            self.bound[nonterminal] &= !(1 << state);
        }
    }

    // Notes: what a test rests on

    fn note(&mut self, place: usize) {
        self.used.put(place);
    }

    /// Whether the binding at a place holds against those that are kept. What a yes used becomes its row.
    fn holds(&mut self, place: usize) -> bool {
        let mut ty = usize::from(self.types[place]);
        let state = self.ends[ty];
        let mut parameter = 0;
        while self.results[ty] != NONE {
            self.parts[parameter] = ty as u16;
            self.part_states[parameter] = self.member_states[ty];
            ty = usize::from(self.results[ty]);
            parameter += 1;
        }
        let nonterminal = usize::from(self.binding_nonterminals[place]);
        self.first = usize::from(self.first_nodes[nonterminal]);
        self.tested = place;
        self.stamp += 1;
        self.used.clear();
        let holds = self.has_states(0, 1 << state);
        if holds {
            self.enter_row(place);
        } else {
            self.rows[place].clear();
        }
        holds
    }

    /// The notes of a test become the row of its binding; after the first round the columns follow.
    fn enter_row(&mut self, place: usize) {
        if self.later {
            for word in bits_in(u64::from(self.used.full)) {
                let new = self.used.words[word] & !self.rows[place].word(word);
                self.enter_columns(place, word, new);
            }
        }
        self.rows[place].copy(&self.used);
    }

    /// Puts a place into the columns of those that a word of its row names.
    fn enter_columns(&mut self, place: usize, word: usize, bits: u64) {
        bits_in(bits).for_each(|bit| self.columns[word * 64 + bit].put(place));
    }

    fn fill_columns(&mut self) {
        let total = self.now.bindings;
        self.columns[..total].iter_mut().for_each(Set::clear);
        for place in 0..total {
            for word in bits_in(u64::from(self.rows[place].full)) {
                self.enter_columns(place, word, self.rows[place].words[word]);
            }
        }
    }

    // The check of states

    /// Whether the term at a node of the body has all of some states.
    fn has_states(&mut self, node: usize, states: u16) -> bool {
        let Node { tag, count, number, .. } = self.nodes[self.first + node];
        let number = usize::from(number);
        if count == 0 {
            return self.alone_has_states(tag, number, states);
        }
        if tag == CONSTRUCTOR && states & (states - 1) == 0 {
            return self.constructor_has(node, states.trailing_zeros() as usize);
        }
        let mut found = self.found[node];
        if found.stamp != self.stamp {
            found = Found { stamp: self.stamp, known: 0, had: 0 };
        }
        if states & found.known & !found.had != 0 {
            return false;
        }
        let mut all = true;
        for state in bits_in(u64::from(states & !found.known)) {
            all = match tag {
                CONSTRUCTOR => self.constructor_has(node, state),
                NONTERMINAL => self.nonterminal_has(node, state),
                _ => self.parameter_has(node, number, state),
            };
            found.known |= 1 << state;
            if !all {
                break;
            }
            found.had |= 1 << state;
        }
        self.found[node] = found;
        all
    }

    /// The states that a head alone has.
    fn states_alone(&self, tag: u8, number: usize) -> u16 {
        match tag {
            CONSTRUCTOR => self.present[number],
            NONTERMINAL => self.bound[number],
            _ => self.part_states[number],
        }
    }

    fn alone_has_states(&mut self, tag: u8, number: usize, states: u16) -> bool {
        if states & !self.states_alone(tag, number) != 0 {
            return false;
        }
        if tag == NONTERMINAL {
            // Of a nonterminal of trees each binding is alone in its bucket.
            bits_in(u64::from(states)).for_each(|state| self.note(usize::from(self.buckets[number][state].0)));
        }
        true
    }

    /// The states that the term at a node is known to lack.
    fn lacks(&self, node: usize) -> u16 {
        let Node { tag, count, number, .. } = self.nodes[self.first + node];
        if count == 0 {
            return !self.states_alone(tag, usize::from(number));
        }
        let found = self.found[node];
        if found.stamp == self.stamp {
            found.known & !found.had
        } else {
            0
        }
    }

    fn constructor_has(&mut self, node: usize, state: usize) -> bool {
        let Node { number, count, .. } = self.nodes[self.first + node];
        let constructor = usize::from(number);
        if self.present[constructor] >> state & 1 == 0 {
            return false;
        }
        let targets = self.targets[state][constructor];
        self.arguments_have_targets(node, &targets[..usize::from(count)])
    }

    fn arguments_have_targets(&mut self, node: usize, targets: &[u8]) -> bool {
        let mut argument = node + 1;
        for &target in targets {
            if !self.has_states(argument, 1 << target) {
                return false;
            }
            argument = usize::from(self.nodes[self.first + argument].end);
        }
        true
    }

    fn nonterminal_has(&mut self, node: usize, state: usize) -> bool {
        let number = usize::from(self.nodes[self.first + node].number);
        if self.bound[number] >> state & 1 == 0 {
            return false;
        }
        let (from, to) = self.buckets[number][state];
        let wide = usize::from(to - from) > self.narrow;
        if wide && self.hinted(node, state) {
            return true;
        }
        let mut lacking = self.lacks(node + 1);
        let mut span = Span::new((from, to));
        while let Some(place) = span.next(&self.kept) {
            if self.first_states[place] & lacking != 0 {
                continue;
            }
            if self.arguments_have(node, self.types[place]) {
                self.note(place);
                if wide {
                    self.hint(node, state, place);
                }
                return true;
            }
            lacking = self.lacks(node + 1);
        }
        false
    }

    fn parameter_has(&mut self, node: usize, number: usize, state: usize) -> bool {
        let (from, to) = self.members_of(self.parts[number]);
        (from..to).any(|member| {
            let ty = self.members[member];
            usize::from(self.ends[usize::from(ty)]) == state && self.arguments_have(node, ty)
        })
    }

    /// Whether each argument of a node has every member that the arrows of a type ask of it.
    fn arguments_have(&mut self, node: usize, ty: u16) -> bool {
        let mut rest = ty;
        let mut argument = node + 1;
        for _ in 0..self.nodes[self.first + node].count {
            let states = self.member_states[usize::from(rest)];
            // A type that fits a sort has sets of states alone or of arrows alone.
            let has = if states != 0 { self.has_states(argument, states) } else { self.has_arrows(argument, rest) };
            if !has {
                return false;
            }
            argument = usize::from(self.nodes[self.first + argument].end);
            rest = self.results[usize::from(rest)];
        }
        true
    }

    // Hints: what served before is tried first. Any number will do for a hint

    /// The cell of a node and a goal, a state or 16 and a type, for all tests, and for those of one binding.
    fn shared_cell(&self, node: usize, goal: usize) -> usize {
        ((self.first + node) * 16 + goal) % HINTS
    }

    fn own_cell(&self, node: usize, goal: usize) -> usize {
        ((self.first + node) * 16 + goal + self.tested * 4_093) % OWN_HINTS
    }

    fn hint(&mut self, node: usize, goal: usize, place: usize) {
        let hint = Hint { call: self.call as u16, place: place as u16 };
        self.hints[self.shared_cell(node, goal)] = hint;
        self.own_hints[self.own_cell(node, goal)] = hint;
    }

    /// Whether something that served before serves for a node and a goal: what did last for any binding, what did last for this
    /// one, then all that this test and the last one of this binding used.
    fn hinted(&mut self, node: usize, goal: usize) -> bool {
        let shared = self.hinted_by(self.hints[self.shared_cell(node, goal)]);
        if shared.is_some_and(|place| self.serves_for(node, goal, place)) {
            return true;
        }
        let own = self.hinted_by(self.own_hints[self.own_cell(node, goal)]).filter(|&place| shared != Some(place));
        let found = own.filter(|&place| self.serves_for(node, goal, place)).or_else(|| self.noted_serves(node, goal));
        found.map(|place| self.hint(node, goal, place)).is_some()
    }

    fn hinted_by(&self, hint: Hint) -> Option<usize> {
        (hint.call == self.call as u16).then_some(usize::from(hint.place))
    }

    fn noted_serves(&mut self, node: usize, goal: usize) -> Option<usize> {
        let (from, to) = self.bucket(node, goal);
        for word in usize::from(from) / 64..usize::from(to).div_ceil(64) {
            let last = if self.later { self.rows[self.tested].word(word) } else { 0 };
            let noted = self.used.word(word) | last;
            let found = bits_in(noted).map(|bit| word * 64 + bit).find(|&place| self.serves_for(node, goal, place));
            if found.is_some() {
                return found;
            }
        }
        None
    }

    /// The bucket of a node's head and a goal.
    fn bucket(&self, node: usize, goal: usize) -> (u16, u16) {
        let state = if goal < 16 { goal } else { usize::from(self.ends[goal - 16]) };
        self.buckets[usize::from(self.nodes[self.first + node].number)][state]
    }

    /// Whether the binding at a place, any number, serves for a node and a goal.
    fn serves_for(&mut self, node: usize, goal: usize, place: usize) -> bool {
        let (from, to) = self.bucket(node, goal);
        if place < usize::from(from) || place >= usize::from(to) || self.kept[place / 64] >> (place % 64) & 1 == 0 {
            return false;
        }
        let ty = self.types[place];
        if goal >= 16 && usize::from(self.without(ty, self.nodes[self.first + node].count)) != goal - 16 {
            return false;
        }
        if !self.arguments_have(node, ty) {
            return false;
        }
        self.note(place);
        true
    }

    // The check of arrows

    /// A type with arrows off.
    fn without(&self, ty: u16, arrows: u8) -> u16 {
        (0..arrows).fold(ty, |rest, _| self.results[usize::from(rest)])
    }

    /// Whether the term at a node has all members, arrows, of a type.
    fn has_arrows(&mut self, node: usize, of: u16) -> bool {
        let (from, to) = self.members_of(of);
        if from == to {
            return true;
        }
        let Node { tag, count, number, .. } = self.nodes[self.first + node];
        match tag {
            CONSTRUCTOR => (from..to).all(|member| self.constructor_leads(node, self.members[member])),
            NONTERMINAL if count == 0 => self.nonterminal_alone_has(usize::from(number), of),
            _ if count == 0 => {
                let (low, high) = self.members_of(self.parts[usize::from(number)]);
                contains_all(&self.members[low..high], &self.members[from..to])
            }
            _ => self.head_leads(node, of),
        }
    }

    fn constructor_leads(&mut self, node: usize, goal: u16) -> bool {
        let Node { number, count, .. } = self.nodes[self.first + node];
        let Some(targets) = self.row_of(usize::from(number), usize::from(count), goal) else {
            return false;
        };
        self.arguments_have_targets(node, &targets[..usize::from(count)])
    }

    /// The targets of a constructor, if its type with some arrows off is the goal.
    fn row_of(&self, constructor: usize, given: usize, goal: u16) -> Option<[u8; 4]> {
        let state = usize::from(self.ends[usize::from(goal)]);
        if self.present[constructor] >> state & 1 == 0 {
            return None;
        }
        let targets = self.targets[state][constructor];
        let mut rest = usize::from(goal);
        for &target in &targets[given..usize::from(self.constructors[constructor])] {
            if self.member_states[rest] != 1 << target {
                return None;
            }
            rest = usize::from(self.results[rest]);
        }
        Some(targets)
    }

    /// Whether a nonterminal alone has all members of a type. That depends on the kept alone: the answer stands for the round.
    fn nonterminal_alone_has(&mut self, nonterminal: usize, of: u16) -> bool {
        let (from, to) = self.members_of(of);
        let of = usize::from(of);
        let key = self.round << 9 | (nonterminal as u64) << 1;
        if self.bare[of] & !1 != key {
            let all = (from..to).all(|member| self.bound_place(nonterminal, self.members[member]).is_some());
            self.bare[of] = key | u64::from(all);
            self.noted[of] = 0;
        }
        if self.bare[of] & 1 == 1 && self.noted[of] != self.stamp {
            self.noted[of] = self.stamp;
            for member in from..to {
                if let Some(place) = self.bound_place(nonterminal, self.members[member]) {
                    self.note(place);
                }
            }
        }
        self.bare[of] & 1 == 1
    }

    /// The place of a nonterminal's kept binding to a type.
    fn bound_place(&self, nonterminal: usize, ty: u16) -> Option<usize> {
        let state = usize::from(self.ends[usize::from(ty)]);
        if self.bound[nonterminal] >> state & 1 == 0 {
            return None;
        }
        let (from, to) = self.buckets[nonterminal][state];
        let from = usize::from(from);
        let place = from + self.types[from..usize::from(to)].binary_search(&ty).ok()?;
        (self.kept[place / 64] >> (place % 64) & 1 == 1).then_some(place)
    }

    /// Whether a head with arguments has all members of a type. What a node has is kept for the test.
    fn head_leads(&mut self, node: usize, of: u16) -> bool {
        if self.arrow_stamps[node] != self.stamp {
            self.arrow_stamps[node] = self.stamp;
            self.arrows_known[node].clear();
            self.arrows_had[node].clear();
        }
        let of = usize::from(of);
        self.fill_member_set(of);
        let (known, had) = (&self.arrows_known[node], &self.arrows_had[node]);
        let asked = &self.member_sets[of];
        if bits_in(u64::from(asked.full)).any(|word| asked.words[word] & known.word(word) & !had.word(word) != 0) {
            return false;
        }
        for word in bits_in(u64::from(asked.full)) {
            let todo = self.member_sets[of].words[word] & !self.arrows_known[node].word(word);
            for goal in bits_in(todo).map(|bit| word * 64 + bit) {
                let leads = self.leads(node, goal);
                self.arrows_known[node].put(goal);
                if !leads {
                    return false;
                }
                self.arrows_had[node].put(goal);
            }
        }
        true
    }

    /// The members of a type as a set, made when it is first asked for.
    fn fill_member_set(&mut self, of: usize) {
        if self.member_set_calls[of] == self.call {
            return;
        }
        self.member_set_calls[of] = self.call;
        self.member_sets[of].clear();
        let (from, to) = self.members_of(of as u16);
        (from..to).for_each(|member| self.member_sets[of].put(usize::from(self.members[member])));
    }

    fn leads(&mut self, node: usize, goal: usize) -> bool {
        let Node { tag, count, number, .. } = self.nodes[self.first + node];
        let number = usize::from(number);
        if tag == NONTERMINAL {
            return self.nonterminal_leads(node, number, count, goal);
        }
        let (from, to) = self.members_of(self.parts[number]);
        (from..to).any(|member| {
            let ty = self.members[member];
            self.ends[usize::from(ty)] == self.ends[goal]
                && usize::from(self.without(ty, count)) == goal
                && self.arguments_have(node, ty)
        })
    }

    fn nonterminal_leads(&mut self, node: usize, number: usize, count: u8, goal: usize) -> bool {
        let state = usize::from(self.ends[goal]);
        if self.bound[number] >> state & 1 == 0 {
            return false;
        }
        let (from, to) = self.buckets[number][state];
        if usize::from(to - from) > self.narrow {
            return self.hinted(node, goal + 16) || self.served(node, goal, Span::new((from, to)));
        }
        let mut span = Span::new((from, to));
        while let Some(place) = span.next(&self.kept) {
            let ty = self.types[place];
            if usize::from(self.without(ty, count)) == goal && self.arguments_have(node, ty) {
                self.note(place);
                return true;
            }
        }
        false
    }

    /// Whether one of the bindings whose types become the goal with some arrows off serves for a node.
    fn served(&mut self, node: usize, goal: usize, mut span: Span) -> bool {
        if !self.serving {
            self.fill_serves();
        }
        let mut lacking = self.lacks(node + 1);
        while let Some(place) = span.next(&self.serves[goal]) {
            if self.first_states[place] & lacking != 0 {
                continue;
            }
            if self.serves_for(node, goal + 16, place) {
                self.hint(node, goal + 16, place);
                return true;
            }
            lacking = self.lacks(node + 1);
        }
        false
    }

    /// For each arrow type the kept bindings whose types become it with some arrows off.
    fn fill_serves(&mut self) {
        self.serves[..self.now.types].fill([0; WORDS]);
        for place in 0..self.now.bindings {
            let (word, bit) = (place / 64, 1 << (place % 64));
            let mut ty = usize::from(self.types[place]);
            while self.kept[word] & bit != 0 && self.results[ty] != NONE {
                self.serves[ty][word] |= bit;
                ty = usize::from(self.results[ty]);
            }
        }
        self.serving = true;
    }

    fn members_of(&self, arrow: u16) -> (usize, usize) {
        let arrow = usize::from(arrow);
        (usize::from(self.first_members[arrow]), usize::from(self.first_members[arrow + 1]))
    }
}

/// Whether one ascending list has all of another.
fn contains_all(list: &[u16], asked: &[u16]) -> bool {
    let mut rest = list.iter();
    asked.iter().all(|item| rest.any(|other| other == item))
}
