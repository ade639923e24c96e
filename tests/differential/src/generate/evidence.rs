//! Bindings drawn for a plan: some found by a search, so that many hold, some at random, and mixtures.

use super::plan::{Body, Plan};
use crate::case_file::{CaseFile, TypeRecord, CONSTRUCTOR, NONTERMINAL};
use crate::random::Random;
use std::collections::{BTreeSet, HashMap, HashSet};

/// A type: a state, or an arrow from members, ascending, to a result.
#[derive(Clone, PartialEq, Eq, Hash)]
enum Shape {
    State(usize),
    Arrow(Vec<usize>, usize),
}

/// Types by number. Equal types have equal numbers, and a type comes behind its parts.
struct Types {
    shapes: Vec<Shape>,
    numbers: HashMap<Shape, usize>,
}

impl Types {
    fn number(&mut self, shape: Shape) -> usize {
        if let Some(&number) = self.numbers.get(&shape) {
            return number;
        }
        self.shapes.push(shape.clone());
        self.numbers.insert(shape, self.shapes.len() - 1);
        self.shapes.len() - 1
    }

    fn state(&mut self, state: usize) -> usize {
        self.number(Shape::State(state))
    }

    fn arrow(&mut self, members: impl IntoIterator<Item = usize>, result: usize) -> usize {
        let members: BTreeSet<usize> = members.into_iter().collect();
        self.number(Shape::Arrow(members.into_iter().collect(), result))
    }

    /// The arrow that takes each of the sets in turn to a result.
    fn arrows<S: AsRef<[usize]>>(&mut self, sets: &[S], result: usize) -> usize {
        sets.iter().rev().fold(result, |result, set| self.arrow(set.as_ref().iter().copied(), result))
    }

    /// The member sets of the first `count` arrows and what is left, if there are that many.
    fn taken_apart(&self, ty: usize, count: usize) -> Option<(Vec<Vec<usize>>, usize)> {
        let mut sets = Vec::new();
        let mut rest = ty;
        for _ in 0..count {
            let Shape::Arrow(members, result) = &self.shapes[rest] else {
                return None;
            };
            sets.push(members.clone());
            rest = *result;
        }
        Some((sets, rest))
    }
}

const MOST_MEMBERS: usize = 16;
const MOST_TYPES: usize = 1_024;
const MOST_BINDINGS: usize = 1_024;

/// What a search wants of a nonterminal that is applied to some arguments: the goal, and the members asked of the arguments so far.
struct Wanted {
    nonterminal: usize,
    applied: usize,
    goal: usize,
    sets: Vec<BTreeSet<usize>>,
}

pub struct Search<'a> {
    random: &'a mut Random,
    plan: &'a Plan,
    types: Types,
    wanted: Vec<Wanted>,
    known: HashMap<(usize, usize, usize), usize>,
    most_wanted: usize,
    /// Member sets for arguments of a sort, from which the search guesses.
    guesses: HashMap<usize, Vec<Vec<usize>>>,
}

/// One walk over a body: the parameters before `applied` gather members, the others have those of the goal.
struct Walk {
    rule: usize,
    applied: usize,
    gathered: Vec<BTreeSet<usize>>,
    given: Vec<Vec<usize>>,
    seen: HashSet<(usize, usize)>,
}

impl<'a> Search<'a> {
    fn new(random: &'a mut Random, plan: &'a Plan) -> Search<'a> {
        let most_wanted = 20 + 4 * plan.nonterminals.len().min(64);
        let types = Types { shapes: Vec::new(), numbers: HashMap::new() };
        Search { random, plan, types, wanted: Vec::new(), known: HashMap::new(), most_wanted, guesses: HashMap::new() }
    }

    /// A type that fits a sort.
    fn draw_type(&mut self, sort: usize) -> usize {
        match self.plan.sorts.function(sort) {
            None => {
                let state = self.random.below(self.plan.states);
                self.types.state(state)
            }
            Some((from, to)) => {
                let members = self.draw_set(from);
                let result = self.draw_type(to);
                self.types.arrow(members, result)
            }
        }
    }

    fn draw_set(&mut self, sort: usize) -> Vec<usize> {
        let most = if self.types.shapes.len() > 700 { 0 } else { self.random.below(100) };
        let count = match most {
            0..=34 => 0,
            35..=79 => 1,
            80..=94 => 2,
            95..=98 => 3,
            _ => self.random.between(4, MOST_MEMBERS),
        };
        (0..count).map(|_| self.draw_type(sort)).collect()
    }

    fn guess(&mut self, sort: usize) -> Vec<usize> {
        if !self.guesses.contains_key(&sort) {
            let sets = (0..2).map(|_| self.draw_set(sort)).collect();
            self.guesses.insert(sort, sets);
        }
        let sets = &self.guesses[&sort];
        self.random.choose(sets).cloned().unwrap_or_default()
    }

    /// Wants a goal of a nonterminal with `applied` arguments, and gives the number of the wish.
    fn want(&mut self, nonterminal: usize, applied: usize, goal: usize) -> Option<usize> {
        let key = (nonterminal, applied, goal);
        if let Some(&known) = self.known.get(&key) {
            return Some(known);
        }
        if self.wanted.len() >= self.most_wanted {
            return None;
        }
        self.wanted.push(Wanted { nonterminal, applied, goal, sets: vec![BTreeSet::new(); applied] });
        self.known.insert(key, self.wanted.len() - 1);
        Some(self.wanted.len() - 1)
    }

    /// Walks the bodies again and again until no wish grows, or for some passes.
    fn run(&mut self, passes: usize) {
        for _ in 0..passes {
            let mut grew = false;
            let mut number = 0;
            while number < self.wanted.len() {
                let before = (self.wanted.len(), self.wanted[number].sets.clone());
                self.walk_rule(number);
                grew |= before != (self.wanted.len(), self.wanted[number].sets.clone());
                number += 1;
            }
            if !grew {
                break;
            }
        }
    }

    fn walk_rule(&mut self, number: usize) {
        let wanted = &self.wanted[number];
        let (rule, applied) = (wanted.nonterminal, wanted.applied);
        let left = self.plan.parameters(rule).len() - applied;
        let Some((given, state)) = self.types.taken_apart(wanted.goal, left) else {
            return;
        };
        let mut walk = Walk { rule, applied, gathered: wanted.sets.clone(), given, seen: HashSet::new() };
        let plan = self.plan;
        self.walk(&plan.bodies[rule], state, &mut walk);
        self.wanted[number].sets = walk.gathered;
    }

    /// Asks of a term that it has the goal: gathers what its parameters need for it.
    fn walk(&mut self, term: &Body, goal: usize, walk: &mut Walk) {
        if !walk.seen.insert((term.id, goal)) {
            return;
        }
        let sets = match term.tag {
            CONSTRUCTOR => self.constructor_sets(term, goal),
            NONTERMINAL => self.nonterminal_sets(term, goal),
            _ => self.parameter_sets(term, goal, walk),
        };
        for (argument, set) in term.arguments.iter().zip(sets) {
            for member in set {
                self.walk(argument, member, walk);
            }
        }
    }

    fn constructor_sets(&mut self, term: &Body, goal: usize) -> Vec<Vec<usize>> {
        let left = self.plan.constructors[term.number] - term.arguments.len();
        let Some((_, state)) = self.types.taken_apart(goal, left) else {
            return Vec::new();
        };
        let Shape::State(state) = self.types.shapes[state] else {
            return Vec::new();
        };
        let targets = self.plan.transitions[state][term.number].iter().flatten();
        targets.map(|&target| vec![self.types.state(target)]).collect()
    }

    fn nonterminal_sets(&mut self, term: &Body, goal: usize) -> Vec<Vec<usize>> {
        match self.want(term.number, term.arguments.len(), goal) {
            Some(number) => self.wanted[number].sets.iter().map(|set| set.iter().copied().collect()).collect(),
            None => Vec::new(),
        }
    }

    fn parameter_sets(&mut self, term: &Body, goal: usize, walk: &mut Walk) -> Vec<Vec<usize>> {
        let count = term.arguments.len();
        let members: Vec<usize> = match walk.applied.checked_sub(term.number + 1) {
            Some(_) => walk.gathered[term.number].iter().copied().collect(),
            None => walk.given[term.number - walk.applied].clone(),
        };
        for &member in &members {
            if let Some((sets, rest)) = self.types.taken_apart(member, count) {
                if rest == goal {
                    return sets;
                }
            }
        }
        if term.number >= walk.applied || members.len() >= MOST_MEMBERS {
            return Vec::new();
        }
        let sort = self.plan.parameters(walk.rule)[term.number];
        let sorts = self.plan.sorts.arguments(sort);
        let sets: Vec<Vec<usize>> = sorts[..count].iter().map(|&sort| self.guess(sort)).collect();
        let member = self.types.arrows(&sets, goal);
        walk.gathered[term.number].insert(member);
        sets
    }

    /// Bindings found from the start symbol at state 0, now and then from other goals too.
    fn searched(&mut self) -> Vec<(usize, usize)> {
        let start = self.types.state(0);
        self.want(0, 0, start);
        let all = self.plan.nonterminals.len();
        let others = if self.random.percent(40) { all.min(40) } else { 0 };
        for _ in 0..others {
            let nonterminal = self.random.below(all);
            let applied = self.random.between(0, self.plan.parameters(nonterminal).len());
            let sort = self.plan.sorts.applied(self.plan.nonterminals[nonterminal], applied);
            let goal = self.draw_type(sort);
            self.want(nonterminal, applied, goal);
        }
        let passes = self.random.between(1, 8);
        self.run(passes);
        self.found()
    }

    /// A type of any sort, or an arrow with a member of any sort: mostly it does not fit where it stood.
    fn misfit(&mut self, ty: usize) -> usize {
        let sort = self.random.below(self.plan.sorts.count());
        let other = self.draw_type(sort);
        match self.types.shapes[ty].clone() {
            Shape::Arrow(mut members, result) if self.random.percent(70) && members.len() < MOST_MEMBERS => {
                members.push(other);
                self.types.arrow(members, result)
            }
            _ => other,
        }
    }

    /// Bends some types, drops a binding or binds a type that does not fit, now and then.
    fn spoil(&mut self, bindings: &mut Vec<(usize, usize)>) {
        let bent = if self.random.percent(35) { self.random.between(1, 3) } else { 0 };
        for _ in 0..bent {
            let at = self.random.below(bindings.len());
            if let Some(&(nonterminal, ty)) = bindings.get(at) {
                bindings[at].1 = self.bent(ty, self.plan.nonterminals[nonterminal]);
            }
        }
        let at = self.random.below(bindings.len());
        if self.random.percent(25) && !bindings.is_empty() {
            bindings.swap_remove(at);
        } else if self.random.percent(3) && !bindings.is_empty() {
            bindings[at].1 = self.misfit(bindings[at].1);
        }
    }

    /// The bindings of all wishes.
    fn found(&mut self) -> Vec<(usize, usize)> {
        let mut bindings = Vec::new();
        for wanted in &self.wanted {
            let sets: Vec<Vec<usize>> = wanted.sets.iter().map(|set| set.iter().copied().collect()).collect();
            bindings.push((wanted.nonterminal, self.types.arrows(&sets, wanted.goal)));
        }
        bindings
    }

    /// Bindings with types drawn at random.
    fn drawn(&mut self, count: usize) -> Vec<(usize, usize)> {
        let draw = |search: &mut Self| {
            let nonterminal = search.random.below(search.plan.nonterminals.len());
            (nonterminal, search.draw_type(search.plan.nonterminals[nonterminal]))
        };
        (0..count).map(|_| draw(self)).collect()
    }

    /// A type with one member set larger or smaller.
    fn bent(&mut self, ty: usize, sort: usize) -> usize {
        let Some((from, to)) = self.plan.sorts.function(sort) else {
            return self.draw_type(sort);
        };
        let Shape::Arrow(mut members, result) = self.types.shapes[ty].clone() else {
            return ty;
        };
        match self.random.below(4) {
            0 if !members.is_empty() => {
                members.remove(self.random.below(members.len()));
            }
            0 | 1 if members.len() < MOST_MEMBERS => members.push(self.draw_type(from)),
            2 if !members.is_empty() => {
                let at = self.random.below(members.len());
                members[at] = self.bent(members[at], from);
            }
            _ => {
                let result = self.bent(result, to);
                return self.types.arrow(members, result);
            }
        }
        self.types.arrow(members, result)
    }
}

/// Gives a file of a plan its types and bindings.
pub fn draw_evidence(random: &mut Random, plan: &Plan, file: &mut CaseFile) {
    let mut search = Search::new(random, plan);
    let mut bindings = Vec::new();
    if search.random.percent(80) {
        bindings = search.searched();
    }
    if bindings.is_empty() || search.random.percent(45) {
        let all = plan.nonterminals.len();
        let count = search.random.between(0, if all > 40 { 1_200 } else { 2 + 2 * all });
        bindings.extend(search.drawn(count));
    }
    search.spoil(&mut bindings);
    let unbound = if search.random.percent(15) { search.random.between(1, 3) } else { 0 };
    let extra: Vec<usize> = search.drawn(unbound).into_iter().map(|(_, ty)| ty).collect();
    let shapes = search.types.shapes;
    list(random, &shapes, &bindings, &extra, file);
}

/// Lists the bindings and the types that they need, in an order drawn at random, as far as the limits allow.
fn list(random: &mut Random, shapes: &[Shape], bindings: &[(usize, usize)], extra: &[usize], file: &mut CaseFile) {
    let mut lister = Lister { shapes, numbers: HashMap::new(), records: Vec::new() };
    let mut order: Vec<usize> = (0..bindings.len() + extra.len()).collect();
    for i in (1..order.len()).rev() {
        order.swap(i, random.below(i + 1));
    }
    let mut listed = BTreeSet::new();
    for &i in &order {
        let ty = bindings.get(i).map_or_else(|| extra[i - bindings.len()], |&(_, ty)| ty);
        let Some(number) = lister.list(random, ty) else {
            continue;
        };
        if let Some(&(nonterminal, _)) = bindings.get(i).filter(|_| listed.len() < MOST_BINDINGS) {
            listed.insert((nonterminal as u16, number));
        }
    }
    file.types = lister.records;
    file.bindings = listed.into_iter().collect();
}

struct Lister<'a> {
    shapes: &'a [Shape],
    numbers: HashMap<usize, u16>,
    records: Vec<TypeRecord>,
}

impl Lister<'_> {
    /// Lists a type behind its parts, and gives its number; none where the list is full.
    fn list(&mut self, random: &mut Random, ty: usize) -> Option<u16> {
        if let Some(&number) = self.numbers.get(&ty) {
            return Some(number);
        }
        let shapes = self.shapes;
        let record = match &shapes[ty] {
            Shape::State(state) => TypeRecord::State(*state as u8),
            Shape::Arrow(members, result) => {
                let first = random.percent(50);
                let early = if first { self.list(random, *result) } else { None };
                let numbers: Option<BTreeSet<u16>> = members.iter().map(|&member| self.list(random, member)).collect();
                let result = if first { early } else { self.list(random, *result) };
                TypeRecord::Arrow { result: result?, members: numbers?.into_iter().take(MOST_MEMBERS).collect() }
            }
        };
        if self.records.len() == MOST_TYPES {
            return None;
        }
        self.records.push(record);
        let number = (self.records.len() - 1) as u16;
        self.numbers.insert(ty, number);
        Some(number)
    }
}
