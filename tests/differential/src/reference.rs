//! The rules of the scope, written from its text and the readings of it in docs/DECISIONS.md: nothing of the library's
//! tables, orders and shortcuts is used.
//!
//! Terms are trees on the heap. Sorts and types are shapes, and equal shapes are one. What a check finds is kept in a
//! hash map. Nothing here is made to be fast.

use crate::verdict::Verdict;
use std::collections::{BTreeMap, BTreeSet, HashMap, HashSet};
use std::hash::Hash;
use std::rc::Rc;

const MOST_BYTES: usize = 60_000;
/// The kinds of remarks, which are stepped over.
const REMARKS: std::ops::RangeInclusive<usize> = 0x8000..=0xFFFF;
const MOST_SORTS: usize = 64;
const MOST_SORT_ARGUMENTS: usize = 8;
const MOST_CONSTRUCTORS: usize = 32;
const MOST_NONTERMINALS: usize = 256;
const MOST_BODY_NODES: usize = 256;
const MOST_TRANSITIONS: usize = 512;
const MOST_TYPES: usize = 1_024;
const MOST_BINDINGS: usize = 1_024;
const MOST_LETTERS: usize = 4_096;
const MOST_LEVELS: usize = 64;
const MOST_TERM_NODES: usize = 4_096;

/// The verdict on a file. A binding case that is not refused gets its flags; no other byte changes.
pub fn judge(file: &[u8], flags: &mut [u8]) -> Verdict {
    match examine(file, flags.len()) {
        Err(refusal) => refusal.verdict(),
        Ok(Case::Path(plan, letters)) => replay(&plan, &letters),
        Ok(Case::Bindings(plan, evidence)) => shrink(&plan, &evidence, flags),
    }
}

/// A number of the table of refusals, and its place.
pub struct Refusal {
    pub number: u64,
    pub place: usize,
}

impl Refusal {
    fn verdict(&self) -> Verdict {
        Verdict::Refused { number: self.number, place: self.place as u64 }
    }
}

/// What a file that 1 to 12 do not refuse holds.
pub enum Case {
    Bindings(Plan, Evidence),
    Path(Plan, Vec<u8>),
}

/// Kinds 1 to 6: the rules and the automaton.
pub struct Plan {
    arities: Vec<usize>,
    bodies: Vec<Rc<Term>>,
    transitions: BTreeMap<(usize, usize), Vec<usize>>,
}

/// Kinds 7 and 8: the bindings, with the shapes of their types.
pub struct Evidence {
    types: Shapes<TypeShape>,
    bindings: Vec<(usize, Type)>,
}

// Shapes

/// Shapes by number, in which equal shapes have equal numbers.
struct Shapes<S> {
    shapes: Vec<S>,
    numbers: HashMap<S, usize>,
}

impl<S: Clone + Eq + Hash> Shapes<S> {
    fn new() -> Self {
        Shapes { shapes: Vec::new(), numbers: HashMap::new() }
    }

    fn number(&mut self, shape: S) -> usize {
        if let Some(&number) = self.numbers.get(&shape) {
            return number;
        }
        self.shapes.push(shape.clone());
        self.numbers.insert(shape, self.shapes.len() - 1);
        self.shapes.len() - 1
    }

    fn shape(&self, number: usize) -> &S {
        &self.shapes[number]
    }
}

/// A sort: trees, or functions from one sort to another.
#[derive(Clone, PartialEq, Eq, Hash)]
enum SortShape {
    Tree,
    Function(Sort, Sort),
}

type Sort = usize;

impl Shapes<SortShape> {
    /// What a sort takes, and what that leads to.
    fn function(&self, sort: Sort) -> Option<(Sort, Sort)> {
        match *self.shape(sort) {
            SortShape::Tree => None,
            SortShape::Function(from, to) => Some((from, to)),
        }
    }

    /// The sorts of the arguments, left to right.
    fn arguments(&self, sort: Sort) -> Vec<Sort> {
        let mut arguments = Vec::new();
        let mut rest = sort;
        while let Some((from, to)) = self.function(rest) {
            arguments.push(from);
            rest = to;
        }
        arguments
    }

    /// o to .. to o, with `arity` arguments.
    fn of_constructor(&mut self, arity: usize) -> Sort {
        let tree = self.number(SortShape::Tree);
        (0..arity).fold(tree, |sort, _| self.number(SortShape::Function(tree, sort)))
    }
}

/// A type: a state, or an arrow from a set of members to a result.
#[derive(Clone, PartialEq, Eq, Hash)]
enum TypeShape {
    State(usize),
    Arrow(BTreeSet<Type>, Type),
}

type Type = usize;

// Terms

#[derive(Clone, Copy, PartialEq, Eq, Debug)]
pub enum Head {
    Constructor(usize),
    Nonterminal(usize),
    Parameter(usize),
}

/// A head with its arguments. `nodes` counts its heads as a tree.
pub struct Term {
    head: Head,
    arguments: Vec<Rc<Term>>,
    nodes: usize,
}

impl Term {
    fn new(head: Head, arguments: Vec<Rc<Term>>) -> Rc<Term> {
        let nodes = 1 + arguments.iter().map(|argument| argument.nodes).sum::<usize>();
        Rc::new(Term { head, arguments, nodes })
    }

    /// The term with `values` put for its parameters. A parameter's own arguments come behind those of the value.
    fn put(&self, values: &[Rc<Term>]) -> Rc<Term> {
        let arguments: Vec<Rc<Term>> = self.arguments.iter().map(|argument| argument.put(values)).collect();
        let Head::Parameter(number) = self.head else {
            return Term::new(self.head, arguments);
        };
        let value = &values[number];
        if arguments.is_empty() {
            return Rc::clone(value);
        }
        Term::new(value.head, value.arguments.iter().cloned().chain(arguments).collect())
    }
}

/// A node of a body: a head and how many arguments it has.
struct Node {
    head: Head,
    count: usize,
}

/// One term from the front of `nodes`, at most `levels` deep, and the nodes behind it.
fn read_term(nodes: &[Node], levels: usize) -> Option<(Rc<Term>, &[Node])> {
    let (first, mut rest) = nodes.split_first()?;
    if levels == 0 {
        return None;
    }
    let mut arguments = Vec::new();
    for _ in 0..first.count {
        let (argument, behind) = read_term(rest, levels - 1)?;
        arguments.push(argument);
        rest = behind;
    }
    Some((Term::new(first.head, arguments), rest))
}

// The records of a file

struct Record<'a> {
    place: usize,
    kind: usize,
    payload: &'a [u8],
}

fn word(bytes: &[u8], at: usize) -> usize {
    usize::from(bytes[at]) + 256 * usize::from(bytes[at + 1])
}

fn words(bytes: &[u8]) -> Vec<usize> {
    (0..bytes.len() / 2).map(|i| word(bytes, 2 * i)).collect()
}

/// The record at a place; 2 if it runs past the end.
fn record_at(file: &[u8], place: usize) -> Result<Record<'_>, Refusal> {
    let cut = || Refusal { number: 2, place };
    let header = file.get(place..place + 4).ok_or_else(cut)?;
    let payload = file.get(place + 4..place + 4 + word(header, 0)).ok_or_else(cut)?;
    Ok(Record { place, kind: word(header, 2), payload })
}

fn refuse_if(met: bool, number: u64) -> Result<(), u64> {
    if met {
        Err(number)
    } else {
        Ok(())
    }
}

/// The entries of the records so far.
struct Entries {
    last_kind: usize,
    sort_shapes: Shapes<SortShape>,
    type_shapes: Shapes<TypeShape>,
    sort_payloads: HashSet<Vec<u8>>,
    type_payloads: HashSet<Vec<u8>>,
    sorts: Vec<Sort>,
    arities: Vec<usize>,
    nonterminals: Vec<(Sort, usize)>,
    rules: Vec<(Vec<Node>, usize)>,
    states: Option<usize>,
    transitions: BTreeMap<(usize, usize), Vec<usize>>,
    types: Vec<Type>,
    bindings: Vec<(usize, usize, usize)>,
    path: Option<Vec<u8>>,
}

impl Entries {
    fn new() -> Entries {
        let mut sort_shapes = Shapes::new();
        let tree = sort_shapes.number(SortShape::Tree);
        Entries {
            last_kind: 0,
            sort_shapes,
            type_shapes: Shapes::new(),
            sort_payloads: HashSet::new(),
            type_payloads: HashSet::new(),
            sorts: vec![tree],
            arities: Vec::new(),
            nonterminals: Vec::new(),
            rules: Vec::new(),
            states: None,
            transitions: BTreeMap::new(),
            types: Vec::new(),
            bindings: Vec::new(),
            path: None,
        }
    }

    /// Enters a record, or gives the first of 3 to 7 that it meets.
    fn enter(&mut self, record: &Record) -> Result<(), u64> {
        refuse_if(!(1..=9).contains(&record.kind) || record.kind < self.last_kind, 3)?;
        self.last_kind = record.kind;
        match record.kind {
            1 => self.enter_sort(record.payload),
            2 => self.enter_constructor(record.payload),
            3 => self.enter_nonterminal(record.payload, record.place),
            4 => self.enter_rule(record.payload, record.place),
            5 => self.enter_states(record.payload),
            6 => self.enter_transition(record.payload),
            7 => self.enter_type(record.payload),
            8 => self.enter_binding(record.payload, record.place),
            _ => self.enter_path(record.payload),
        }
    }

    fn enter_sort(&mut self, payload: &[u8]) -> Result<(), u64> {
        refuse_if(payload.len() != 4, 4)?;
        let (from, to) = (word(payload, 0), word(payload, 2));
        refuse_if(self.sorts.len() > MOST_SORTS, 5)?;
        if let Some(&to) = self.sorts.get(to) {
            refuse_if(self.sort_shapes.arguments(to).len() + 1 > MOST_SORT_ARGUMENTS, 5)?;
        }
        let from = *self.sorts.get(from).ok_or(6u64)?;
        let to = *self.sorts.get(to).ok_or(6u64)?;
        refuse_if(!self.sort_payloads.insert(payload.to_vec()), 7)?;
        self.sorts.push(self.sort_shapes.number(SortShape::Function(from, to)));
        Ok(())
    }

    fn enter_constructor(&mut self, payload: &[u8]) -> Result<(), u64> {
        refuse_if(payload.len() != 1, 4)?;
        refuse_if(self.arities.len() == MOST_CONSTRUCTORS, 5)?;
        refuse_if(payload[0] > 4, 6)?;
        self.arities.push(usize::from(payload[0]));
        Ok(())
    }

    fn enter_nonterminal(&mut self, payload: &[u8], place: usize) -> Result<(), u64> {
        refuse_if(payload.len() != 2, 4)?;
        refuse_if(self.nonterminals.len() == MOST_NONTERMINALS, 5)?;
        let sort = *self.sorts.get(word(payload, 0)).ok_or(6u64)?;
        self.nonterminals.push((sort, place));
        Ok(())
    }

    fn enter_rule(&mut self, payload: &[u8], place: usize) -> Result<(), u64> {
        refuse_if(payload.is_empty() || payload.len() % 4 != 0, 4)?;
        refuse_if(payload.len() / 4 > MOST_BODY_NODES, 5)?;
        let (sort, _) = *self.nonterminals.get(self.rules.len()).ok_or(6u64)?;
        let parameters = self.sort_shapes.arguments(sort).len();
        let nodes: Result<Vec<Node>, u64> = payload.chunks(4).map(|bytes| self.node(bytes, parameters)).collect();
        self.rules.push((nodes?, place));
        Ok(())
    }

    /// A node of a body whose nonterminal has `parameters` parameters, or 6.
    fn node(&self, bytes: &[u8], parameters: usize) -> Result<Node, u64> {
        let number = word(bytes, 1);
        let (head, entries) = match bytes[0] {
            0 => (Head::Constructor(number), self.arities.len()),
            1 => (Head::Nonterminal(number), self.nonterminals.len()),
            2 => (Head::Parameter(number), parameters),
            _ => return Err(6),
        };
        refuse_if(number >= entries || bytes[3] > 8, 6)?;
        Ok(Node { head, count: usize::from(bytes[3]) })
    }

    fn enter_states(&mut self, payload: &[u8]) -> Result<(), u64> {
        refuse_if(payload.len() != 1, 4)?;
        refuse_if(self.states.is_some(), 5)?;
        refuse_if(!(1..=16).contains(&payload[0]), 6)?;
        self.states = Some(usize::from(payload[0]));
        Ok(())
    }

    fn is_state(&self, byte: u8) -> bool {
        self.states.is_some_and(|states| usize::from(byte) < states)
    }

    fn enter_transition(&mut self, payload: &[u8]) -> Result<(), u64> {
        refuse_if(payload.len() != 6, 4)?;
        refuse_if(self.transitions.len() == MOST_TRANSITIONS, 5)?;
        let (state, constructor) = (usize::from(payload[0]), usize::from(payload[1]));
        refuse_if(!self.is_state(payload[0]), 6)?;
        let arity = *self.arities.get(constructor).ok_or(6u64)?;
        let (targets, past) = payload[2..].split_at(arity);
        refuse_if(!targets.iter().all(|&target| self.is_state(target)), 6)?;
        refuse_if(past.iter().any(|&target| target != 0), 6)?;
        let last = self.transitions.last_key_value().map(|(&pair, _)| pair);
        refuse_if(last.is_some_and(|last| (state, constructor) <= last), 7)?;
        self.transitions.insert((state, constructor), targets.iter().map(|&target| usize::from(target)).collect());
        Ok(())
    }

    fn enter_type(&mut self, payload: &[u8]) -> Result<(), u64> {
        let length = payload.len();
        refuse_if(length != 1 && !(length % 2 == 0 && (2..=34).contains(&length)), 4)?;
        refuse_if(self.types.len() == MOST_TYPES, 5)?;
        let shape = if length == 1 {
            refuse_if(!self.is_state(payload[0]), 6)?;
            TypeShape::State(usize::from(payload[0]))
        } else {
            let numbers = words(payload);
            let known: Option<Vec<Type>> = numbers.iter().map(|&number| self.types.get(number).copied()).collect();
            let known = known.ok_or(6u64)?;
            refuse_if(numbers[1..].windows(2).any(|pair| pair[0] >= pair[1]), 7)?;
            TypeShape::Arrow(known[1..].iter().copied().collect(), known[0])
        };
        refuse_if(!self.type_payloads.insert(payload.to_vec()), 7)?;
        self.types.push(self.type_shapes.number(shape));
        Ok(())
    }

    fn enter_binding(&mut self, payload: &[u8], place: usize) -> Result<(), u64> {
        refuse_if(payload.len() != 4, 4)?;
        refuse_if(self.bindings.len() == MOST_BINDINGS, 5)?;
        let (nonterminal, number) = (word(payload, 0), word(payload, 2));
        refuse_if(nonterminal >= self.nonterminals.len() || number >= self.types.len(), 6)?;
        let last = self.bindings.last();
        refuse_if(last.is_some_and(|last| (nonterminal, number) <= (last.0, last.1)), 7)?;
        self.bindings.push((nonterminal, number, place));
        Ok(())
    }

    fn enter_path(&mut self, payload: &[u8]) -> Result<(), u64> {
        refuse_if(self.path.is_some() || payload.len() > MOST_LETTERS, 5)?;
        self.path = Some(payload.to_vec());
        Ok(())
    }
}

// The tests over the whole file

/// The case that a file holds, or the first of 1 to 12 that it meets where `flags` flags are lent.
pub fn examine(file: &[u8], flags: usize) -> Result<Case, Refusal> {
    if file.len() > MOST_BYTES {
        return Err(Refusal { number: 1, place: 0 });
    }
    let mut entries = Entries::new();
    let mut place = 0;
    while place < file.len() {
        let record = record_at(file, place)?;
        if !REMARKS.contains(&record.kind) {
            entries.enter(&record).map_err(|number| Refusal { number, place })?;
        }
        place += 4 + record.payload.len();
    }
    let bodies = entries.bodies()?;
    entries.test_evidence(flags)?;
    Ok(entries.case(bodies))
}

impl Entries {
    /// The bodies of all rules, or 8 or 9.
    fn bodies(&mut self) -> Result<Vec<Rc<Term>>, Refusal> {
        let none = self.states.is_none() || self.nonterminals.is_empty();
        if none || self.rules.len() != self.nonterminals.len() {
            return Err(Refusal { number: 8, place: 0 });
        }
        let tree = self.sorts[0];
        let (start, place) = self.nonterminals[0];
        if start != tree {
            return Err(Refusal { number: 9, place });
        }
        let constructors: Vec<Sort> =
            self.arities.iter().map(|&arity| self.sort_shapes.of_constructor(arity)).collect();
        let mut bodies = Vec::new();
        for ((nodes, place), (sort, _)) in self.rules.iter().zip(&self.nonterminals) {
            let parameters = self.sort_shapes.arguments(*sort);
            let whole = read_term(nodes, MOST_LEVELS).filter(|(_, rest)| rest.is_empty());
            match whole {
                Some((body, _)) if self.sort_of(&body, &constructors, &parameters) == Some(tree) => bodies.push(body),
                _ => return Err(Refusal { number: 9, place: *place }),
            }
        }
        Ok(bodies)
    }

    /// The sort of a term, if it has one.
    fn sort_of(&self, term: &Term, constructors: &[Sort], parameters: &[Sort]) -> Option<Sort> {
        let mut sort = match term.head {
            Head::Constructor(number) => constructors[number],
            Head::Nonterminal(number) => self.nonterminals[number].0,
            Head::Parameter(number) => parameters[number],
        };
        for argument in &term.arguments {
            let (from, to) = self.sort_shapes.function(sort)?;
            if self.sort_of(argument, constructors, parameters)? != from {
                return None;
            }
            sort = to;
        }
        Some(sort)
    }

    /// 10 to 12, where `flags` flags are lent.
    fn test_evidence(&self, flags: usize) -> Result<(), Refusal> {
        if self.path.is_some() && !(self.types.is_empty() && self.bindings.is_empty()) {
            return Err(Refusal { number: 10, place: 0 });
        }
        let mut found = HashMap::new();
        for &(nonterminal, number, place) in &self.bindings {
            if !self.fits(self.types[number], self.nonterminals[nonterminal].0, &mut found) {
                return Err(Refusal { number: 11, place });
            }
        }
        if flags < self.bindings.len() {
            return Err(Refusal { number: 12, place: 0 });
        }
        Ok(())
    }

    /// Whether a type fits a sort. `found` holds what was found before.
    fn fits(&self, ty: Type, sort: Sort, found: &mut HashMap<(Type, Sort), bool>) -> bool {
        if let Some(&fits) = found.get(&(ty, sort)) {
            return fits;
        }
        let fits = match (self.type_shapes.shape(ty), self.sort_shapes.shape(sort)) {
            (TypeShape::State(_), SortShape::Tree) => true,
            (TypeShape::Arrow(members, result), &SortShape::Function(from, to)) => {
                self.fits(*result, to, found) && members.iter().all(|&member| self.fits(member, from, found))
            }
            _ => false,
        };
        found.insert((ty, sort), fits);
        fits
    }

    fn case(self, bodies: Vec<Rc<Term>>) -> Case {
        let plan = Plan { arities: self.arities, bodies, transitions: self.transitions };
        if let Some(letters) = self.path {
            return Case::Path(plan, letters);
        }
        let bindings =
            self.bindings.iter().map(|&(nonterminal, number, _)| (nonterminal, self.types[number])).collect();
        Case::Bindings(plan, Evidence { types: self.type_shapes, bindings })
    }
}

// Reduction and replay

/// The term that a replay holds and its state.
pub struct Replay<'a> {
    plan: &'a Plan,
    term: Rc<Term>,
    state: usize,
}

/// Why a letter leads nowhere: 13 and 14.
pub enum Stuck {
    NoWay,
    TooLarge,
}

impl<'a> Replay<'a> {
    pub fn new(plan: &'a Plan) -> Replay<'a> {
        Replay { plan, term: Term::new(Head::Nonterminal(0), Vec::new()), state: 0 }
    }

    pub fn head(&self) -> Head {
        self.term.head
    }

    /// The target states of the constructor in front, if one is there and has a transition from the state.
    pub fn targets(&self) -> Option<&'a [usize]> {
        let Head::Constructor(constructor) = self.term.head else {
            return None;
        };
        self.plan.transitions.get(&(self.state, constructor)).map(Vec::as_slice)
    }

    /// Follows a letter. Where it leads nowhere, the replay stands as it stood.
    pub fn follow(&mut self, letter: u8) -> Result<(), Stuck> {
        if letter == 0 {
            let Head::Nonterminal(nonterminal) = self.term.head else {
                return Err(Stuck::NoWay);
            };
            let unfolded = self.plan.bodies[nonterminal].put(&self.term.arguments);
            if unfolded.nodes > MOST_TERM_NODES {
                return Err(Stuck::TooLarge);
            }
            self.term = unfolded;
            return Ok(());
        }
        let number = usize::from(letter) - 1;
        let target = *self.targets().and_then(|targets| targets.get(number)).ok_or(Stuck::NoWay)?;
        self.term = Rc::clone(&self.term.arguments[number]);
        self.state = target;
        Ok(())
    }
}

fn replay(plan: &Plan, letters: &[u8]) -> Verdict {
    let mut replay = Replay::new(plan);
    for (place, &letter) in letters.iter().enumerate() {
        match replay.follow(letter) {
            Ok(()) => {}
            Err(Stuck::NoWay) => return Refusal { number: 13, place }.verdict(),
            Err(Stuck::TooLarge) => return Refusal { number: 14, place }.verdict(),
        }
    }
    match replay.head() {
        Head::Constructor(constructor) if replay.targets().is_none() => Verdict::Refuted {
            letters: letters.len() as u64,
            state: replay.state as u64,
            constructor: constructor as u64,
        },
        _ => Refusal { number: 15, place: letters.len() }.verdict(),
    }
}

// Types and shrinking

/// The types of each head while a binding is tested, and what the check found so far.
struct Check<'a> {
    types: &'a Shapes<TypeShape>,
    constructors: &'a [Vec<Type>],
    nonterminals: &'a [Vec<Type>],
    parameters: &'a [Vec<Type>],
    found: HashMap<(*const Term, Type), bool>,
}

impl Check<'_> {
    /// Whether a term has a type.
    fn has(&mut self, term: &Rc<Term>, goal: Type) -> bool {
        let asked = (Rc::as_ptr(term), goal);
        if let Some(&has) = self.found.get(&asked) {
            return has;
        }
        let types = match term.head {
            Head::Constructor(number) => &self.constructors[number],
            Head::Nonterminal(number) => &self.nonterminals[number],
            Head::Parameter(number) => &self.parameters[number],
        };
        let has = types.iter().any(|&ty| self.leads(ty, &term.arguments, goal));
        self.found.insert(asked, has);
        has
    }

    /// Whether a type leads to the goal, one arrow off for each argument, and each argument has every member.
    fn leads(&mut self, ty: Type, arguments: &[Rc<Term>], goal: Type) -> bool {
        let types = self.types;
        let mut rest = ty;
        let mut wanted = Vec::new();
        for _ in arguments {
            let TypeShape::Arrow(members, result) = types.shape(rest) else {
                return false;
            };
            wanted.push(members);
            rest = *result;
        }
        rest == goal
            && arguments.iter().zip(wanted).all(|(argument, members)| members.iter().all(|&m| self.has(argument, m)))
    }
}

/// The members that an arrow type gives for each parameter, and the state behind its arrows.
fn taken_apart(types: &Shapes<TypeShape>, ty: Type) -> (Vec<Vec<Type>>, Type) {
    let mut parameters = Vec::new();
    let mut rest = ty;
    while let TypeShape::Arrow(members, result) = types.shape(rest) {
        parameters.push(members.iter().copied().collect());
        rest = *result;
    }
    (parameters, rest)
}

/// The types of each constructor: for each transition from q to q1..qn the one that takes {q1}, .., {qn} to q.
fn constructor_types(plan: &Plan, types: &mut Shapes<TypeShape>) -> Vec<Vec<Type>> {
    let mut all = vec![Vec::new(); plan.arities.len()];
    for (&(state, constructor), targets) in &plan.transitions {
        let mut ty = types.number(TypeShape::State(state));
        for &target in targets.iter().rev() {
            let member = types.number(TypeShape::State(target));
            ty = types.number(TypeShape::Arrow(BTreeSet::from([member]), ty));
        }
        all[constructor].push(ty);
    }
    all
}

fn shrink(plan: &Plan, evidence: &Evidence, flags: &mut [u8]) -> Verdict {
    let mut types = Shapes { shapes: evidence.types.shapes.clone(), numbers: evidence.types.numbers.clone() };
    let constructors = constructor_types(plan, &mut types);
    let start_type = types.number(TypeShape::State(0));
    let bindings = &evidence.bindings;
    let apart: Vec<_> = bindings.iter().map(|&(_, ty)| taken_apart(&types, ty)).collect();

    let mut kept = vec![true; bindings.len()];
    let mut rounds = 0;
    loop {
        let mut nonterminals = vec![Vec::new(); plan.bodies.len()];
        for (&(nonterminal, ty), _) in bindings.iter().zip(&kept).filter(|(_, kept)| **kept) {
            nonterminals[nonterminal].push(ty);
        }
        let holds = |binding: usize| {
            let (parameters, state) = &apart[binding];
            let mut check = Check {
                types: &types,
                constructors: &constructors,
                nonterminals: &nonterminals,
                parameters,
                found: HashMap::new(),
            };
            check.has(&plan.bodies[bindings[binding].0], *state)
        };
        let left: Vec<bool> = (0..bindings.len()).map(|binding| kept[binding] && holds(binding)).collect();
        if left == kept {
            break;
        }
        kept = left;
        rounds += 1;
    }

    for (flag, &kept) in flags.iter_mut().zip(&kept) {
        *flag = u8::from(kept);
    }
    let accepted = bindings.iter().zip(&kept).any(|(&binding, &kept)| kept && binding == (0, start_type));
    let (kept, total) = (kept.iter().filter(|&&kept| kept).count() as u64, bindings.len() as u64);
    if accepted {
        Verdict::Proved { kept, total, rounds }
    } else {
        Verdict::Unproved { kept, total, rounds }
    }
}
