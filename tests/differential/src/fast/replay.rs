//! The replay of a path on terms that share their parts.

use super::{Judge, CONSTRUCTOR, NONTERMINAL};
use crate::verdict::Verdict;

/// A term of a replay: its head, its arguments by cell, and its nodes as a tree.
#[derive(Clone, Copy)]
pub struct Cell {
    pub tag: u8,
    pub count: u8,
    pub number: u16,
    pub nodes: u32,
    pub arguments: [u16; 8],
}

pub const CELLS: usize = 32_768;
const SPARE_CELLS: usize = 512;
const MOST_TERM_NODES: u32 = 4_096;

impl Judge {
    pub(super) fn replay(&mut self, letters: &[u8]) -> Verdict {
        let refused = |number, place| Verdict::Refused { number, place: place as u64 };
        let mut half = 0;
        let mut top = 1;
        let mut root = 0;
        let mut state = 0;
        let mut values = [0; 256];
        self.cells[0][0] = Cell { tag: NONTERMINAL, count: 0, number: 0, nodes: 1, arguments: [0; 8] };
        for (place, &letter) in letters.iter().enumerate() {
            let front = self.cells[half][root];
            if letter == 0 {
                if front.tag != NONTERMINAL {
                    return refused(13, place);
                }
                if top + SPARE_CELLS > CELLS {
                    (root, top) = self.move_term(half, root);
                    half = 1 - half;
                }
                (root, top) = self.unfold(half, root, top, &mut values);
                if self.cells[half][root].nodes > MOST_TERM_NODES {
                    return refused(14, place);
                }
                continue;
            }
            let constructor = usize::from(front.number);
            if front.tag != CONSTRUCTOR || letter > front.count || self.present[constructor] >> state & 1 == 0 {
                return refused(13, place);
            }
            let number = usize::from(letter) - 1;
            state = usize::from(self.targets[state][constructor][number]);
            root = usize::from(front.arguments[number]);
        }
        let front = self.cells[half][root];
        if front.tag != CONSTRUCTOR || self.present[usize::from(front.number)] >> state & 1 == 1 {
            return refused(15, letters.len());
        }
        Verdict::Refuted { letters: letters.len() as u64, state: state as u64, constructor: u64::from(front.number) }
    }

    /// The body of the nonterminal in front, its arguments put for the parameters: its cell, and the first free one.
    /// `values` is room for the cells of its nodes.
    fn unfold(&mut self, half: usize, root: usize, mut top: usize, values: &mut [u16; 256]) -> (usize, usize) {
        let cells = &mut self.cells[half];
        let front = cells[root];
        let rule = usize::from(front.number);
        let first = usize::from(self.first_nodes[rule]);
        let nodes = &self.nodes[first..usize::from(self.first_nodes[rule + 1])];
        for (i, node) in nodes.iter().enumerate().rev() {
            let mut cell = Cell { tag: node.tag, count: 0, number: node.number, nodes: 1, arguments: [0; 8] };
            if node.tag > NONTERMINAL {
                let value = front.arguments[usize::from(node.number & 7)];
                if node.count == 0 {
                    values[i] = value;
                    continue;
                }
                cell = cells[usize::from(value)];
            }
            let mut argument = i + 1;
            for _ in 0..node.count {
                let value = values[argument & 255];
                cell.arguments[usize::from(cell.count & 7)] = value;
                cell.count += 1;
                cell.nodes += cells[usize::from(value)].nodes;
                argument = usize::from(nodes[argument].end);
            }
            cells[top] = cell;
            values[i] = top as u16;
            top += 1;
        }
        (usize::from(values[0]), top)
    }

    /// Moves a term to the other half: its cell there, and the first free one.
    fn move_term(&mut self, half: usize, root: usize) -> (usize, usize) {
        let [low, high] = &mut self.cells;
        let (old, new) = if half == 0 { (low, high) } else { (high, low) };
        // Each moved cell's arguments are moved behind it, in turn.
        new[0] = old[root];
        let mut top = 1;
        let mut next = 0;
        while next < top {
            for argument in 0..usize::from(new[next].count) {
                new[top] = old[usize::from(new[next].arguments[argument])];
                new[next].arguments[argument] = top as u16;
                top += 1;
            }
            next += 1;
        }
        (0, top)
    }
}
