//! Generated days of editors: records fresh, about full or full, tables of another length, and numbers of no editor.

use crate::editors::{Tally, EDITORS};
use crate::gen::Rng;

/// A record: mostly small, or about 9,999.
fn record(rng: &mut Rng) -> Tally {
    let edges = [0, 1, 4_321, 9_996, 9_997, 9_998, 9_998, 9_999, 10_000, 65_535];
    let often = *rng.pick(&[0, 0, 0, 1]);
    let mut count = || if rng.chance(often, 2) { *rng.pick(&edges) } else { rng.below(3) as u32 };
    Tally { answered: count(), refused: count() }
}

/// A full record, by either number.
fn full(rng: &mut Rng) -> Tally {
    let (most, other) = (*rng.pick(&[9_999, 9_999, 10_000, 65_535]), *rng.pick(&[0, 9_998, 9_999]));
    if rng.chance(1, 2) {
        Tally { answered: most, refused: other }
    } else {
        Tally { answered: other, refused: most }
    }
}

/// A number of no editor: about the ends, or an editor's where it is cut to one, two or four bytes.
fn no_editor(rng: &mut Rng) -> usize {
    *rng.pick(&[0, 0, 41, 41, 42, 80, 255, 256, 257, 296, 297, 65_537, (1 << 32) + 1, usize::MAX])
}

/// One to four editors, often neighbours, the first or the last.
fn team(rng: &mut Rng) -> Vec<usize> {
    let [one, other] = [0; 2].map(|_| 1 + rng.below(EDITORS));
    let count = 1 + rng.below(4);
    (0..count).map(|_| *rng.pick(&[one, one % EDITORS + 1, other, 1, EDITORS])).collect()
}

/// What a day begins with: the records, and the editors who call.
pub struct Day {
    pub records: Vec<Tally>,
    team: Vec<usize>,
}

impl Day {
    /// A day: all records fresh, or each by chance, or all full but for those of the callers, or the first caller's alone full; now and then more of them than forty, or fewer.
    pub fn new(rng: &mut Rng) -> Day {
        let length = if rng.chance(1, 12) { *rng.pick(&[0, 1, 39, 39, 41, 41, 80]) } else { EDITORS };
        let team = team(rng);
        let way = rng.below(8);
        let own: Vec<usize> = team.iter().map(|editor| editor - 1).collect();
        let at = |place: usize| match way {
            0..=2 => Tally::default(),
            3 | 4 => record(rng),
            5 | 6 if !own.contains(&place) => full(rng),
            7 if own[0] == place => full(rng),
            _ => Tally { answered: rng.below(3) as u32, refused: rng.below(3) as u32 },
        };
        Day { records: (0..length).map(at).collect(), team }
    }

    /// The number that calls next: mostly one of the callers', now and then no editor's.
    pub fn caller(&self, rng: &mut Rng) -> usize {
        if rng.chance(1, 12) {
            no_editor(rng)
        } else {
            *rng.pick(&self.team)
        }
    }
}

/// The bytes of editor.bin: mostly an editor's number, now and then another byte, none, or more than one.
pub fn editor_file(rng: &mut Rng) -> Vec<u8> {
    let number = 1 + rng.below(EDITORS) as u8;
    match rng.below(16) {
        0 => vec![*rng.pick(&[0, 41, 49, 128, 169, 255])],
        1 => vec![number; *rng.pick(&[0, 2, 3, 40])],
        2 => vec![number, *rng.pick(&[0, 10, 13])],
        _ => vec![number],
    }
}
