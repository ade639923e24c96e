//! Paths drawn by walking the replay of a plan.

use crate::random::Random;
use crate::reference::{Head, Plan, Replay, Stuck};

/// How a path is drawn: the longest, and how many of a thousand letters end it or are wrong.
#[derive(Clone, Copy)]
pub struct Manner {
    pub longest: usize,
    pub ends: usize,
    pub wrong: usize,
}

impl Manner {
    pub fn draw(random: &mut Random) -> Manner {
        match random.below(100) {
            0..=59 => Manner { longest: 40, ends: 30, wrong: 10 },
            60..=93 => Manner { longest: 40, ends: 0, wrong: 0 },
            94..=98 => Manner { longest: 400, ends: 2, wrong: 1 },
            _ => Manner { longest: 4_096, ends: 0, wrong: 0 },
        }
    }
}

/// Letters that mostly can be followed.
pub fn draw_path(random: &mut Random, plan: &Plan, manner: Manner) -> Vec<u8> {
    let mut replay = Replay::new(plan);
    let mut letters = Vec::new();
    while letters.len() < manner.longest {
        let roll = random.below(1_000);
        if roll < manner.ends {
            break;
        }
        if roll < manner.ends + manner.wrong {
            letters.push(if random.percent(80) { random.below(6) as u8 } else { random.byte() });
            if replay.follow(letters[letters.len() - 1]).is_err() {
                break;
            }
            continue;
        }
        let letter = match (replay.head(), replay.targets()) {
            (Head::Constructor(_), Some([])) => break,
            (Head::Constructor(_), Some(targets)) => random.between(1, targets.len()) as u8,
            (Head::Constructor(_), None) => break,
            _ => 0,
        };
        match replay.follow(letter) {
            Ok(()) => letters.push(letter),
            Err(Stuck::TooLarge) if random.percent(70) => {
                letters.push(letter);
                break;
            }
            Err(_) => break,
        }
    }
    if random.percent(4) {
        letters.push(random.below(5) as u8);
    }
    letters
}
