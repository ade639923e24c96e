//! Plans written as Kobayashi (2009) writes them, made case files.
//!
//! ```text
//! constructor a 2
//! rule F f x : (o > o) > o > o = a (f x) (F f (f x))
//! states 2
//! transition 0 a 0 0
//! binding F : (1 > 1) & (1 > 0) > 1 > 0
//! path 0 0 2
//! ```
//! A type is a state, or a set, `>` and a type; a set is types joined by `&`, arrows in parentheses, or `T` for none.

use crate::case_file::{CaseFile, Node, TypeRecord, CONSTRUCTOR, NONTERMINAL, PARAMETER};
use std::collections::HashMap;

/// The case file of a text, or what cannot be read.
pub fn case_file(text: &str) -> Result<CaseFile, String> {
    let mut reader = Reader::default();
    let lines = || text.lines().map(str::trim).filter(|line| !line.is_empty());
    for line in lines() {
        reader.declare(line).ok_or_else(|| format!("cannot read: {line}"))?;
    }
    for line in lines() {
        reader.define(line).ok_or_else(|| format!("cannot read: {line}"))?;
    }
    let mut file = reader.file;
    file.transitions.sort_unstable();
    file.bindings.sort_unstable();
    Ok(file)
}

#[derive(Default)]
struct Reader {
    file: CaseFile,
    sorts: HashMap<(u16, u16), u16>,
    constructors: HashMap<String, u16>,
    nonterminals: HashMap<String, u16>,
    types: HashMap<(Option<u16>, Vec<u16>), u16>,
}

/// Words and signs, from the front.
struct Words<'a> {
    words: Vec<&'a str>,
    at: usize,
}

impl<'a> Words<'a> {
    fn new(text: &'a str) -> Words<'a> {
        let mut words = Vec::new();
        for word in text.split_whitespace() {
            let mut rest = word;
            while let Some(place) = rest.find(['(', ')', '>', '&', ':', '=']) {
                words.extend([&rest[..place], &rest[place..=place]].into_iter().filter(|part| !part.is_empty()));
                rest = &rest[place + 1..];
            }
            words.extend(Some(rest).filter(|rest| !rest.is_empty()));
        }
        Words { words, at: 0 }
    }

    fn peek(&self) -> Option<&'a str> {
        self.words.get(self.at).copied()
    }

    fn next(&mut self) -> Option<&'a str> {
        let word = self.peek();
        self.at += 1;
        word
    }

    /// Steps over a word if it is the next.
    fn take(&mut self, word: &str) -> bool {
        let there = self.peek() == Some(word);
        self.at += usize::from(there);
        there
    }

    fn number<N: std::str::FromStr>(&mut self) -> Option<N> {
        self.next()?.parse().ok()
    }
}

impl Reader {
    /// Enters the names and sorts of a line.
    fn declare(&mut self, line: &str) -> Option<()> {
        let mut words = Words::new(line);
        match words.next()? {
            "constructor" => {
                self.constructors.insert(words.next()?.to_string(), self.file.constructors.len() as u16);
                self.file.constructors.push(words.number()?);
            }
            "rule" => {
                self.nonterminals.insert(words.next()?.to_string(), self.file.nonterminals.len() as u16);
                while !words.take(":") {
                    words.next()?;
                }
                let sort = self.sort(&mut words)?;
                self.file.nonterminals.push(sort);
            }
            _ => {}
        }
        Some(())
    }

    /// Enters what a line says by those names.
    fn define(&mut self, line: &str) -> Option<()> {
        let mut words = Words::new(line);
        match words.next()? {
            "constructor" => {}
            "rule" => {
                words.next()?;
                let mut parameters = Vec::new();
                while !words.take(":") {
                    parameters.push(words.next()?);
                }
                while !words.take("=") {
                    words.next()?;
                }
                let mut nodes = Vec::new();
                self.term(&mut words, &parameters, &mut nodes)?;
                self.file.rules.push(nodes);
            }
            "states" => self.file.states = words.number()?,
            "transition" => {
                let state = words.number()?;
                let constructor = *self.constructors.get(words.next()?)? as u8;
                let mut fields = [state, constructor, 0, 0, 0, 0];
                for field in &mut fields[2..] {
                    *field = if words.peek().is_some() { words.number()? } else { 0 };
                }
                self.file.transitions.push(fields);
            }
            "binding" => {
                let nonterminal = *self.nonterminals.get(words.next()?)?;
                words.take(":").then_some(())?;
                let ty = self.ty(&mut words)?;
                self.file.bindings.push((nonterminal, ty));
            }
            "path" => {
                let mut letters = Vec::new();
                while words.peek().is_some() {
                    letters.push(words.number()?);
                }
                self.file.path = Some(letters);
            }
            _ => return None,
        }
        Some(())
    }

    fn sort(&mut self, words: &mut Words) -> Option<u16> {
        let first = if words.take("(") {
            let sort = self.sort(words)?;
            words.take(")").then_some(sort)?
        } else {
            words.take("o").then_some(0)?
        };
        if !words.take(">") {
            return Some(first);
        }
        let to = self.sort(words)?;
        let next = self.file.sorts.len() as u16 + 1;
        let number = *self.sorts.entry((first, to)).or_insert(next);
        if number == next {
            self.file.sorts.push((first, to));
        }
        Some(number)
    }

    /// A head and its arguments, up to the end or a closing parenthesis.
    fn term(&self, words: &mut Words, parameters: &[&str], nodes: &mut Vec<Node>) -> Option<()> {
        let place = nodes.len();
        nodes.push(self.head(words.next()?, parameters)?);
        while let Some(word) = words.peek().filter(|&word| word != ")") {
            nodes[place].count += 1;
            words.next();
            if word == "(" {
                self.term(words, parameters, nodes)?;
                words.take(")").then_some(())?;
            } else {
                nodes.push(self.head(word, parameters)?);
            }
        }
        Some(())
    }

    fn head(&self, name: &str, parameters: &[&str]) -> Option<Node> {
        let parameter = parameters.iter().position(|&parameter| parameter == name);
        let (tag, number) = parameter
            .map(|number| (PARAMETER, number as u16))
            .or_else(|| self.nonterminals.get(name).map(|&number| (NONTERMINAL, number)))
            .or_else(|| self.constructors.get(name).map(|&number| (CONSTRUCTOR, number)))?;
        Some(Node { tag, number, count: 0 })
    }

    /// The number of a type; it is listed where it is new.
    fn ty(&mut self, words: &mut Words) -> Option<u16> {
        let mut members = Vec::new();
        let mut state = None;
        loop {
            if words.take("(") {
                members.push(self.ty(words)?);
                words.take(")").then_some(())?;
            } else if !words.take("T") {
                state = Some(words.number()?);
                members.push(self.listed(TypeRecord::State(state?)));
            }
            if !words.take("&") {
                break;
            }
            state = None;
        }
        if !words.take(">") {
            state?;
            return members.first().copied().filter(|_| members.len() == 1);
        }
        let result = self.ty(words)?;
        members.sort_unstable();
        members.dedup();
        Some(self.listed(TypeRecord::Arrow { result, members }))
    }

    fn listed(&mut self, record: TypeRecord) -> u16 {
        let key = match &record {
            TypeRecord::State(state) => (None, vec![u16::from(*state)]),
            TypeRecord::Arrow { result, members } => (Some(*result), members.clone()),
        };
        let next = self.file.types.len() as u16;
        let number = *self.types.entry(key).or_insert(next);
        if number == next {
            self.file.types.push(record);
        }
        number
    }
}
