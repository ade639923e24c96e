//! Plans drawn at random: sorts, rules whose bodies have the right sorts, and an automaton.

use crate::case_file::{CaseFile, Node, CONSTRUCTOR, NONTERMINAL, PARAMETER};
use crate::random::Random;

/// How large a plan is to be: each is the most that may be drawn.
#[derive(Clone, Copy)]
pub struct Size {
    pub sorts: usize,
    pub constructors: usize,
    pub nonterminals: usize,
    pub nodes: usize,
    pub all_nodes: usize,
    pub states: usize,
}

impl Size {
    pub const TINY: Size = Size { sorts: 3, constructors: 4, nonterminals: 3, nodes: 8, all_nodes: 100, states: 2 };
    pub const SMALL: Size = Size { sorts: 8, constructors: 6, nonterminals: 6, nodes: 16, all_nodes: 100, states: 4 };
    pub const MEDIUM: Size =
        Size { sorts: 24, constructors: 16, nonterminals: 30, nodes: 60, all_nodes: 600, states: 16 };
    pub const LARGE: Size =
        Size { sorts: 64, constructors: 32, nonterminals: 256, nodes: 256, all_nodes: 10_000, states: 16 };

    pub fn draw(random: &mut Random) -> Size {
        match random.below(1_000) {
            0..=449 => Size::TINY,
            450..=929 => Size::SMALL,
            930..=994 => Size::MEDIUM,
            _ => Size::LARGE,
        }
    }
}

/// Sorts by number. Sort 0 is trees; another is what it takes and what that leads to.
pub struct Sorts {
    functions: Vec<(usize, usize)>,
}

impl Sorts {
    pub fn count(&self) -> usize {
        self.functions.len()
    }

    /// What a sort takes and what that leads to; none for trees.
    pub fn function(&self, sort: usize) -> Option<(usize, usize)> {
        if sort == 0 {
            None
        } else {
            Some(self.functions[sort])
        }
    }

    /// The sorts of the arguments, left to right.
    pub fn arguments(&self, sort: usize) -> Vec<usize> {
        let mut arguments = Vec::new();
        let mut rest = sort;
        while let Some((from, to)) = self.function(rest) {
            arguments.push(from);
            rest = to;
        }
        arguments
    }

    /// What is left of a sort with `given` arguments given.
    pub fn applied(&self, sort: usize, given: usize) -> usize {
        (0..given).fold(sort, |rest, _| self.function(rest).map_or(0, |(_, to)| to))
    }

    /// 0 for trees; else one more than the highest of what is taken, or as high as what it leads to.
    pub fn order(&self, sort: usize) -> usize {
        self.arguments(sort).into_iter().map(|argument| 1 + self.order(argument)).max().unwrap_or(0)
    }

    /// The number of o to .. to o with `arity` arguments, where it is listed.
    fn of_constructor(&self, arity: usize) -> Option<usize> {
        (0..arity).try_fold(0, |sort, _| (1..self.count()).find(|&s| self.functions[s] == (0, sort)))
    }

    fn draw(random: &mut Random, most: usize) -> Sorts {
        let mut sorts = Sorts { functions: vec![(0, 0)] };
        let count = drawn_count(random, 0, most);
        for _ in 0..4 * count {
            if sorts.count() > count {
                break;
            }
            // Trees are taken more often than functions, and short sorts are made longer.
            let from = if random.percent(60) { 0 } else { random.below(sorts.count()) };
            let to = if random.percent(35) { 0 } else { random.below(sorts.count()) };
            let known = sorts.functions[1..].contains(&(from, to));
            if !known && sorts.arguments(to).len() < 8 && sorts.order(from) < 4 {
                sorts.functions.push((from, to));
            }
        }
        sorts
    }
}

/// A number up to `most`, now and then exactly that.
fn drawn_count(random: &mut Random, least: usize, most: usize) -> usize {
    if random.percent(15) {
        most
    } else {
        random.between(least, most)
    }
}

/// A body. `id` numbers the nodes of a rule in prefix order.
#[derive(Clone)]
pub struct Body {
    pub tag: u8,
    pub number: usize,
    pub arguments: Vec<Body>,
    pub id: usize,
}

impl Body {
    fn nodes(&self) -> usize {
        1 + self.arguments.iter().map(Body::nodes).sum::<usize>()
    }

    fn number_nodes(&mut self, next: &mut usize) {
        self.id = *next;
        *next += 1;
        self.arguments.iter_mut().for_each(|argument| argument.number_nodes(next));
    }

    fn flatten(&self, nodes: &mut Vec<Node>) {
        nodes.push(Node { tag: self.tag, number: self.number as u16, count: self.arguments.len() as u8 });
        self.arguments.iter().for_each(|argument| argument.flatten(nodes));
    }
}

pub struct Plan {
    pub sorts: Sorts,
    pub constructors: Vec<usize>,
    pub nonterminals: Vec<usize>,
    pub bodies: Vec<Body>,
    pub states: usize,
    /// By state and constructor: the targets, if there is a transition.
    pub transitions: Vec<Vec<Option<Vec<usize>>>>,
}

impl Plan {
    pub fn draw(random: &mut Random, size: Size) -> Plan {
        let sorts = Sorts::draw(random, size.sorts);
        let count = drawn_count(random, 0, size.constructors);
        let constructors: Vec<usize> = (0..count).map(|_| drawn_arity(random)).collect();
        let others = drawn_count(random, 1, size.nonterminals) - 1;
        let nonterminals: Vec<usize> =
            std::iter::once(0).chain((0..others).map(|_| random.below(sorts.count()))).collect();
        let states = drawn_count(random, 1, size.states);
        let transitions = draw_transitions(random, states, &constructors);
        let mut plan = Plan { sorts, constructors, nonterminals, bodies: Vec::new(), states, transitions };
        plan.draw_bodies(random, size);
        if random.percent(12) {
            plan.chain(random);
        }
        plan.number_nodes();
        plan
    }

    pub fn parameters(&self, nonterminal: usize) -> Vec<usize> {
        self.sorts.arguments(self.nonterminals[nonterminal])
    }

    fn draw_bodies(&mut self, random: &mut Random, size: Size) {
        let mut left = size.all_nodes;
        let weights = [random.between(1, 5), random.between(1, 4), random.between(1, 6)];
        let closed = Heads::of_plan(self);
        let closed_costs = least_costs(&[&closed], vec![NO_TERM; self.sorts.count()]);
        for nonterminal in 0..self.nonterminals.len() {
            let budget = if random.percent(3) { size.nodes } else { random.between(1, size.nodes.min(40)) };
            let parameters = Heads::of_rule(self, nonterminal);
            let heads = [&closed, &parameters];
            let costs = least_costs(&heads, closed_costs.clone());
            let body = Writer { random, heads: &heads, costs, weights }.body(0, budget.min(left.max(1)), 64);
            left = left.saturating_sub(body.nodes());
            self.bodies.push(body);
        }
    }

    /// Lets some rules hand their parameters on to another nonterminal of the same sort, so that losses travel.
    fn chain(&mut self, random: &mut Random) {
        for from in 0..self.nonterminals.len() {
            let same: Vec<usize> = (0..self.nonterminals.len())
                .filter(|&to| to != from && self.nonterminals[to] == self.nonterminals[from])
                .collect();
            let later = same.iter().copied().find(|&to| to > from);
            let to = if random.percent(80) { later } else { random.choose(&same).copied() };
            if let Some(to) = to.filter(|_| random.percent(80)) {
                let parameters = 0..self.parameters(from).len();
                let arguments =
                    parameters.map(|number| Body { tag: PARAMETER, number, arguments: Vec::new(), id: 0 }).collect();
                self.bodies[from] = Body { tag: NONTERMINAL, number: to, arguments, id: 0 };
            }
        }
    }

    /// Lets a rule unfold to itself with larger arguments, and the start symbol lead to it. False if no rule can.
    pub fn grow(&mut self, random: &mut Random) -> bool {
        let with_parameters: Vec<usize> = (1..self.nonterminals.len()).filter(|&f| self.nonterminals[f] != 0).collect();
        let Some(&nonterminal) = random.choose(&with_parameters) else {
            return false;
        };
        let sorts = self.parameters(nonterminal);
        let closed = Heads::of_plan(self);
        let closed_costs = least_costs(&[&closed], vec![NO_TERM; self.sorts.count()]);
        if sorts.iter().any(|&sort| closed_costs[sort] > 30) {
            return false;
        }
        let parameters = Heads::of_rule(self, nonterminal);
        let heads = [&closed, &parameters];
        let costs = least_costs(&heads, closed_costs.clone());
        let budget = random.between(2, 20);
        let application = |writer: &mut Writer, budget: usize| Body {
            tag: NONTERMINAL,
            number: nonterminal,
            arguments: sorts.iter().map(|&sort| writer.body(sort, budget, 63)).collect(),
            id: 0,
        };
        let mut open_writer = Writer { random, heads: &heads, costs, weights: [2, 1, 8] };
        self.bodies[nonterminal] = application(&mut open_writer, budget);
        let mut closed_writer = Writer { random, heads: &[&closed], costs: closed_costs, weights: [2, 1, 1] };
        self.bodies[0] = application(&mut closed_writer, 4);
        self.number_nodes();
        true
    }

    /// Takes transitions away, so that more paths end at a constructor without one.
    pub fn thin(&mut self, random: &mut Random) {
        for targets in self.transitions.iter_mut().flatten() {
            if random.percent(25) {
                *targets = None;
            }
        }
    }

    fn number_nodes(&mut self) {
        self.bodies.iter_mut().for_each(|body| body.number_nodes(&mut 0));
    }

    /// Kinds 1 to 6.
    pub fn case_file(&self) -> CaseFile {
        let mut file = CaseFile {
            sorts: self.sorts.functions[1..].iter().map(|&(from, to)| (from as u16, to as u16)).collect(),
            constructors: self.constructors.iter().map(|&arity| arity as u8).collect(),
            nonterminals: self.nonterminals.iter().map(|&sort| sort as u16).collect(),
            states: self.states as u8,
            ..CaseFile::default()
        };
        for body in &self.bodies {
            let mut nodes = Vec::new();
            body.flatten(&mut nodes);
            file.rules.push(nodes);
        }
        for (state, row) in self.transitions.iter().enumerate() {
            for (constructor, targets) in row.iter().enumerate() {
                if let Some(targets) = targets {
                    let mut fields = [state as u8, constructor as u8, 0, 0, 0, 0];
                    fields[2..].iter_mut().zip(targets).for_each(|(field, &target)| *field = target as u8);
                    file.transitions.push(fields);
                }
            }
        }
        file
    }
}

fn drawn_arity(random: &mut Random) -> usize {
    match random.below(10) {
        0..=2 => 0,
        3..=6 => 1,
        7..=8 => 2,
        _ => random.between(3, 4),
    }
}

fn draw_transitions(random: &mut Random, states: usize, constructors: &[usize]) -> Vec<Vec<Option<Vec<usize>>>> {
    let density = *random.choose(&[50, 80, 95, 100, 100]).unwrap_or(&100);
    let mut transition = |&arity: &usize| {
        let there = random.percent(density);
        let targets = (0..arity).map(|_| random.below(states)).collect();
        there.then_some(targets)
    };
    (0..states).map(|_| constructors.iter().map(&mut transition).collect()).collect()
}

/// A head with the sorts of the arguments that it is given.
struct Use {
    tag: u8,
    number: usize,
    arguments: Vec<usize>,
}

/// For each sort the heads that can stand in front of a term of it.
struct Heads {
    by_sort: Vec<Vec<Use>>,
}

impl Heads {
    fn none(plan: &Plan) -> Heads {
        Heads { by_sort: (0..plan.sorts.count()).map(|_| Vec::new()).collect() }
    }

    /// Constructors and nonterminals.
    fn of_plan(plan: &Plan) -> Heads {
        let mut heads = Heads::none(plan);
        for (number, &arity) in plan.constructors.iter().enumerate() {
            for given in 0..=arity {
                if let Some(sort) = plan.sorts.of_constructor(arity - given) {
                    heads.by_sort[sort].push(Use { tag: CONSTRUCTOR, number, arguments: vec![0; given] });
                }
            }
        }
        for (number, &sort) in plan.nonterminals.iter().enumerate() {
            heads.add(&plan.sorts, NONTERMINAL, number, sort);
        }
        heads
    }

    /// The parameters of a nonterminal.
    fn of_rule(plan: &Plan, nonterminal: usize) -> Heads {
        let mut heads = Heads::none(plan);
        for (number, sort) in plan.parameters(nonterminal).into_iter().enumerate() {
            heads.add(&plan.sorts, PARAMETER, number, sort);
        }
        heads
    }

    /// A head of some sort with none, one, .. or all of its arguments.
    fn add(&mut self, sorts: &Sorts, tag: u8, number: usize, sort: usize) {
        let mut arguments = Vec::new();
        let mut rest = sort;
        self.by_sort[rest].push(Use { tag, number, arguments: arguments.clone() });
        while let Some((from, to)) = sorts.function(rest) {
            arguments.push(from);
            rest = to;
            self.by_sort[rest].push(Use { tag, number, arguments: arguments.clone() });
        }
    }
}

/// The nodes of the smallest term of each sort.
type Costs = Vec<usize>;

const NO_TERM: usize = 1_000_000;

fn cost_of(costs: &Costs, a_use: &Use) -> usize {
    1 + a_use.arguments.iter().map(|&sort| costs[sort]).sum::<usize>()
}

/// The least costs with these heads, from costs that are not less.
fn least_costs(all_heads: &[&Heads], mut costs: Costs) -> Costs {
    let mut changed = true;
    while changed {
        changed = false;
        for sort in 0..costs.len() {
            let uses = all_heads.iter().flat_map(|heads| &heads.by_sort[sort]);
            let least = uses.map(|a_use| cost_of(&costs, a_use)).min().unwrap_or(NO_TERM);
            if least < costs[sort] {
                costs[sort] = least;
                changed = true;
            }
        }
    }
    costs
}

/// Writes bodies. `weights` say how often constructors, nonterminals and parameters are taken.
struct Writer<'a> {
    random: &'a mut Random,
    heads: &'a [&'a Heads],
    costs: Costs,
    weights: [usize; 3],
}

impl Writer<'_> {
    /// A term of a sort that has one, of about `budget` nodes at most.
    fn body(&mut self, sort: usize, budget: usize, levels: usize) -> Body {
        let Some(taken) = self.head(sort, budget, levels) else {
            return Body { tag: NONTERMINAL, number: 0, arguments: Vec::new(), id: 0 };
        };
        let mut spare = budget.saturating_sub(cost_of(&self.costs, taken));
        let mut arguments = Vec::new();
        for (i, &sort) in taken.arguments.iter().enumerate() {
            let last = i + 1 == taken.arguments.len();
            let share = if last { spare } else { self.random.between(0, spare) };
            spare -= share;
            arguments.push(self.body(sort, self.costs[sort] + share, levels.saturating_sub(1)));
        }
        Body { tag: taken.tag, number: taken.number, arguments, id: 0 }
    }

    /// A head for such a term; near the last level one of the smallest.
    fn head<'b>(&mut self, sort: usize, budget: usize, levels: usize) -> Option<&'b Use>
    where
        Self: 'b,
    {
        let most = if levels <= 12 { self.costs[sort] } else { self.costs[sort].max(budget) };
        let weight = |a_use: &Use| {
            let wide = if budget > 3 { 1 + 4 * a_use.arguments.len() } else { 1 };
            let affordable = cost_of(&self.costs, a_use) <= most;
            if affordable {
                self.weights[usize::from(a_use.tag)] * wide
            } else {
                0
            }
        };
        let uses = || self.heads.iter().flat_map(|heads| &heads.by_sort[sort]);
        let mut ticket = self.random.below(uses().map(weight).sum());
        for a_use in uses() {
            let weight = weight(a_use);
            if ticket < weight {
                return Some(a_use);
            }
            ticket -= weight;
        }
        None
    }
}
