//! A case file as a value, and the bytes that it is written as.

/// A node of a body: 0 constructor, 1 nonterminal, 2 parameter; its number; its argument count.
#[derive(Clone, Copy)]
pub struct Node {
    pub tag: u8,
    pub number: u16,
    pub count: u8,
}

pub const CONSTRUCTOR: u8 = 0;
pub const NONTERMINAL: u8 = 1;
pub const PARAMETER: u8 = 2;

pub fn constructor(number: usize, count: u8) -> Node {
    Node { tag: CONSTRUCTOR, number: number as u16, count }
}

pub fn nonterminal(number: usize, count: u8) -> Node {
    Node { tag: NONTERMINAL, number: number as u16, count }
}

pub fn parameter(number: u16, count: u8) -> Node {
    Node { tag: PARAMETER, number, count }
}

#[derive(Clone)]
pub enum TypeRecord {
    State(u8),
    Arrow { result: u16, members: Vec<u16> },
}

pub fn arrow(members: &[u16], result: u16) -> TypeRecord {
    TypeRecord::Arrow { result, members: members.to_vec() }
}

/// The entries of each kind in file order. No states stand for no states record.
#[derive(Clone, Default)]
pub struct CaseFile {
    pub sorts: Vec<(u16, u16)>,
    pub constructors: Vec<u8>,
    pub nonterminals: Vec<u16>,
    pub rules: Vec<Vec<Node>>,
    pub states: u8,
    pub transitions: Vec<[u8; 6]>,
    pub types: Vec<TypeRecord>,
    pub bindings: Vec<(u16, u16)>,
    pub path: Option<Vec<u8>>,
}

/// The lowest kind of remarks, which are stepped over.
pub const FIRST_REMARK: u16 = 0x8000;

#[derive(Clone)]
pub struct Record {
    pub kind: u16,
    pub payload: Vec<u8>,
}

/// The records one after another, each with its true length.
pub fn bytes_of(records: &[Record]) -> Vec<u8> {
    let mut bytes = Vec::new();
    for record in records {
        bytes.extend((record.payload.len() as u16).to_le_bytes());
        bytes.extend(record.kind.to_le_bytes());
        bytes.extend(&record.payload);
    }
    bytes
}

/// The places before, between and behind the records, up to the first that is cut.
pub fn borders(bytes: &[u8]) -> Vec<usize> {
    let mut borders = vec![0];
    let mut at = 0;
    while let Some(header) = bytes.get(at..at + 4) {
        at += 4 + usize::from(u16::from_le_bytes([header[0], header[1]]));
        if at > bytes.len() {
            break;
        }
        borders.push(at);
    }
    borders
}

/// Whether a remark stands in a file, before the first record that is cut.
pub fn has_remark(bytes: &[u8]) -> bool {
    let whole = borders(bytes);
    whole.windows(2).any(|pair| u16::from_le_bytes([bytes[pair[0] + 2], bytes[pair[0] + 3]]) >= FIRST_REMARK)
}

fn words(words: &[u16]) -> Vec<u8> {
    words.iter().flat_map(|word| word.to_le_bytes()).collect()
}

fn node_bytes(node: &Node) -> [u8; 4] {
    let [low, high] = node.number.to_le_bytes();
    [node.tag, low, high, node.count]
}

fn type_payload(record: &TypeRecord) -> Vec<u8> {
    match record {
        TypeRecord::State(state) => vec![*state],
        TypeRecord::Arrow { result, members } => [words(&[*result]), words(members)].concat(),
    }
}

impl CaseFile {
    pub fn records(&self) -> Vec<Record> {
        let mut records = Vec::new();
        let mut add = |kind, payload| records.push(Record { kind, payload });
        self.sorts.iter().for_each(|&(from, to)| add(1, words(&[from, to])));
        self.constructors.iter().for_each(|&arity| add(2, vec![arity]));
        self.nonterminals.iter().for_each(|&sort| add(3, words(&[sort])));
        self.rules.iter().for_each(|nodes| add(4, nodes.iter().flat_map(node_bytes).collect()));
        if self.states > 0 {
            add(5, vec![self.states]);
        }
        self.transitions.iter().for_each(|fields| add(6, fields.to_vec()));
        self.types.iter().for_each(|record| add(7, type_payload(record)));
        self.bindings.iter().for_each(|&(nonterminal, ty)| add(8, words(&[nonterminal, ty])));
        self.path.iter().for_each(|letters| add(9, letters.clone()));
        records
    }

    pub fn bytes(&self) -> Vec<u8> {
        bytes_of(&self.records())
    }
}
