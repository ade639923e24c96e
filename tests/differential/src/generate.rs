//! Files drawn by a seed: well-formed plans of all shapes with bindings or a path, files with faults, and both with remarks.

mod damage;
mod evidence;
mod families;
mod path;
mod plan;
mod remarks;

use crate::case_file::{CaseFile, TypeRecord};
use crate::hostile;
use crate::random::Random;
use crate::reference::{self, Case};
use path::Manner;
use plan::{Plan, Size};

/// A file, and how many flags are lent for it.
pub struct Drawn {
    pub bytes: Vec<u8>,
    pub flags: usize,
}

/// The file of a draw.
pub fn draw(seed: u64, number: u64) -> Drawn {
    let random = &mut Random::for_draw(seed, number);
    let file = draw_case(random);
    let flags = draw_flags(random, file.bindings.len());
    let spoilt = random.percent(40);
    let mut bytes = if spoilt { damage::damage(random, file) } else { file.bytes() };
    if random.percent(35) {
        bytes = remarks::scatter(random, &bytes);
    }
    Drawn { bytes, flags }
}

fn draw_case(random: &mut Random) -> CaseFile {
    match random.below(1_000) {
        0..=1 => return families::ring(random),
        2..=6 => return families::nested(random),
        7..=9 => return hostile::draw(random),
        _ => {}
    }
    let size = Size::draw(random);
    let mut plan = Plan::draw(random, size);
    if random.percent(60) {
        let mut file = plan.case_file();
        evidence::draw_evidence(random, &plan, &mut file);
        if random.percent(if size.nodes == Size::LARGE.nodes { 40 } else { 1 }) {
            fill_with_types(random, &mut file);
        }
        return file;
    }
    if random.percent(60) {
        plan.thin(random);
    }
    let grows = random.percent(10) && plan.grow(random);
    let mut file = plan.case_file();
    let manner = if grows { Manner { longest: 4_096, ends: 0, wrong: 0 } } else { Manner::draw(random) };
    file.path = Some(Vec::new());
    if let Ok(Case::Path(plan, _)) = reference::examine(&file.bytes(), 0) {
        file.path = Some(path::draw_path(random, &plan, manner));
    }
    file
}

/// Mostly as many flags as bindings or some more, now and then fewer.
fn draw_flags(random: &mut Random, bindings: usize) -> usize {
    match random.below(100) {
        0..=59 => bindings,
        60..=89 => bindings + random.below(9),
        90..=96 => 1_024,
        _ => random.below(bindings + 1),
    }
}

/// Types that no binding names, up to 60,000 bytes, if there is room for as many.
fn fill_with_types(random: &mut Random, file: &mut CaseFile) {
    let mut room = 60_000usize.saturating_sub(file.bytes().len());
    if file.types.is_empty() || file.types.len() > 900 {
        return;
    }
    if room % 2 == 1 && room > 5 {
        let listed = |state| file.types.iter().any(|record| matches!(record, TypeRecord::State(s) if *s == state));
        if let Some(state) = (0..file.states).find(|&state| !listed(state)) {
            file.types.push(TypeRecord::State(state));
            room -= 5;
        }
    }
    let mut result = file.types.len() as u16 - 1;
    while room >= 6 && file.types.len() < 1_024 {
        // The newest type as the result makes each record a new one.
        let known = usize::from(result) + 1;
        let most = known.min(16).min((room - 6) / 2);
        let least = if room > 5_000 { most } else { most.min(4) };
        let count = random.between(least, most);
        let first = random.below(known - count + 1) as u16;
        file.types.push(TypeRecord::Arrow { result, members: (first..first + count as u16).collect() });
        room -= 6 + 2 * count;
        result += 1;
    }
}
