//! Holds the library's answers against the Rust's and, for what the Rust does not have, against the model's.

use crate::clean::{clean, clean_copying};
use crate::copyings::{some_copying, Given};
use crate::library::{self, Answer, Lent, Members, Workspace};
use crate::model::{self, Judged};
use crate::random::Random;
use crate::solids::{self, Solid};
use std::collections::BTreeMap;

/// What is counted by rank.
#[derive(Clone, Copy)]
enum Row {
    Solids,
    Exchanged,
    Members,
    Confirmed,
}

const ROWS: [&str; 4] = ["solids compared by all three calls", "- those with facets exchanged", "- their members", "- those confirmed"];

/// What is counted by the answer that was expected.
#[derive(Clone, Copy)]
enum Call {
    Sheets,
    Types,
    Search,
    Rotations,
    Copying,
}

const CALLS: [&str; 5] =
    ["sheets broken on purpose", "types, cell by cell", "searches, to the bit", "rotations, to the bit", "copyings, to the bit"];

/// How many of each kind of answer were compared, and what differed.
#[derive(Default)]
pub struct Tally {
    by_rank: [[usize; 6]; 4],
    by_answer: [[usize; 16]; 5],
    left_out: BTreeMap<String, usize>,
    pub differences: usize,
}

impl Tally {
    /// How many clean solids both sides have answered: types, search and rotations, each compared whole. Broken sheets are not among them.
    pub fn solids(&self) -> u64 {
        self.by_rank[Row::Solids as usize].iter().sum::<usize>() as u64
    }

    fn of_rank(&mut self, row: Row, rank: usize, n: usize) {
        self.by_rank[row as usize][rank] += n;
    }

    fn answered(&mut self, call: Call, refusal: u64) {
        self.by_answer[call as usize][refusal as usize] += 1;
    }

    fn left_out(&mut self, what: &str) {
        *self.left_out.entry(what.to_owned()).or_default() += 1;
    }

    fn differs(&mut self, what: String) {
        self.differences += 1;
        if self.differences <= 20 {
            println!("DIFFERS {}", what);
        }
    }

    pub fn print(&self) {
        let line = |label: &str, cells: Vec<String>| println!("{:<38}{}", label, cells.iter().map(|c| format!("{:>7}", c)).collect::<String>());
        let text = |n: &usize| if *n == 0 { "-".to_owned() } else { n.to_string() };
        let mut heads: Vec<String> = (2..6).map(|r| format!("rank {}", r)).collect();
        heads.push("all".to_owned());
        line("", heads);
        for (label, counts) in ROWS.iter().zip(&self.by_rank) {
            let all = counts.iter().sum::<usize>();
            line(label, counts[2..].iter().chain([&all]).map(text).collect());
        }
        // 15 is never met: no sheet brings it about
        let shown = (0..15).filter(|n| *n == 0 || self.by_answer.iter().any(|counts| counts[*n] > 0)).collect::<Vec<usize>>();
        line("refused (13: what fits is compared)", shown.iter().map(|n| if *n == 0 { "not".to_owned() } else { n.to_string() }).collect());
        for (label, counts) in CALLS.iter().zip(&self.by_answer) {
            line(label, shown.iter().map(|n| text(&counts[*n])).collect());
        }
        for (what, n) in &self.left_out {
            println!("{} left out: {}", n, what);
        }
        println!("{} differences", self.differences);
    }
}

/// A length that is enough, and often just enough.
fn enough(random: &mut Random, n: usize) -> usize {
    n + if random.once_in(4) { 0 } else { random.below(40) }
}

/// A length that is too short, and often just so.
fn too_short(random: &mut Random, n: usize) -> usize {
    if random.once_in(2) { n - 1 } else { random.below(n) }
}

// ---- copying

/// Input that is refused: a wrong dimension, a length that is not whole, a float that is not finite or too large, nothing at all.
fn spoilt(random: &mut Random, mut given: Given) -> (u64, Given) {
    let mut d = given.dimension as u64;
    for _ in 0..random.among(1, 2) {
        let bad = [f64::NAN, f64::INFINITY, 1_048_576.0000000002, -1e300][random.below(4)];
        let side = if random.once_in(2) { &mut given.points } else { &mut given.turns };
        match random.below(5) {
            0 => d = [0, 5, 7, 1 << 32, u64::MAX][random.below(5)],
            1 => side.push(0.5),
            2 if !side.is_empty() => {
                let at = random.below(side.len());
                side[at] = bad;
            }
            3 => side.clear(),
            _ => {
                side.pop();
            }
        }
    }
    (d, given)
}

pub fn copying(random: &mut Random, tally: &mut Tally) {
    let mut given = some_copying(random);
    let mut d = given.dimension as u64;
    if random.once_in(8) {
        (d, given) = spoilt(random, given);
    }
    let Given { points, turns, .. } = given;
    let early = model::refused_early(d, &points, &turns);
    if early > 0 {
        let expected = model::Copied { refusal: early, count: 0, copies: vec![], table: vec![] };
        return compare_copying(tally, d, &points, &turns, [random.below(20), random.below(20)], expected);
    }
    let d = d as usize;
    if !clean_copying(d, &points, &turns) {
        return tally.left_out("copyings that are not clean");
    }
    let (copies, table) = match oracle::Copying::new(d, &points, &turns).copied() {
        Err(why) => return tally.differs(format!("the Rust panics at a clean copying, {}: {:?} under {:?}", why, points, turns)),
        Ok(answer) => answer,
    };
    let count = turns.len() / (d * d);
    let wanted = [copies.len(), count * (copies.len() / d)];
    let mut lengths = wanted.map(|n| enough(random, n));
    if random.once_in(5) {
        let k = random.below(2);
        lengths[k] = too_short(random, wanted[k]);
    }
    let expected = model::copied(d, count, &copies, table.as_deref(), lengths[0], lengths[1]);
    compare_copying(tally, d as u64, &points, &turns, lengths, expected)
}

fn compare_copying(tally: &mut Tally, d: u64, points: &[f64], turns: &[f64], lengths: [usize; 2], expected: model::Copied) {
    let (mut copies, mut table) = (Lent::new(lengths[0]), Lent::new(lengths[1]));
    let (mut from, mut by) = (Lent::holding(points), Lent::holding(turns));
    let answer = library::copy(d, &mut from, &mut by, &mut copies, &mut table);
    let same = answer.refusal == expected.refusal && answer.count == expected.count && copies.is(&expected.copies) && table.is(&expected.table);
    let kept = from.is(points) && by.is(turns);
    if !same || !kept {
        let text = |l: &[f64]| l.iter().map(|x| format!("{:016x}", x.to_bits())).collect::<Vec<_>>().join(" ");
        tally.differs(format!(
            "copying D {} lengths {:?}: {:?}, expected {} and {}, input {}\n{}\n{}",
            d,
            lengths,
            answer,
            expected.refusal,
            expected.count,
            if kept { "kept" } else { "changed" },
            text(points),
            text(turns)
        ));
    }
    tally.answered(Call::Copying, expected.refusal);
}

// ---- solids

/// A sheet, and how many words and floats are lent to a call on it.
struct Sheet<'a> {
    bytes: &'a [u8],
    words: usize,
    floats: usize,
}

impl Sheet<'_> {
    /// The types call: is its answer this one, and are the outputs' first cells these, all others and the sheet untouched?
    fn types(&self, tally: &mut Tally, lengths: [usize; 2], expected: (u64, usize), cells: [&[u16]; 2]) {
        let (mut sheet, mut space) = (Lent::holding(self.bytes), Workspace::new(self.words, self.floats));
        let [mut of, mut table] = lengths.map(Lent::new);
        let answer = library::types(&mut sheet, &mut space, &mut of, &mut table);
        let alike = of.is(cells[0]) && table.is(cells[1]) && space.guarded() && sheet.is(self.bytes);
        self.tell(tally, "types", lengths, answer, expected, alike);
    }

    /// The search or rotations call: the same is asked of its answer, its matrices, rows and marks, and the sheet.
    fn members(&self, tally: &mut Tally, only_rotations: bool, lengths: [usize; 3], expected: (u64, usize), cells: (&[f64], &[u16], &[u8])) {
        let (mut sheet, mut space) = (Lent::holding(self.bytes), Workspace::new(self.words, self.floats));
        let mut out = Members { matrices: Lent::new(lengths[0]), rows: Lent::new(lengths[1]), marks: Lent::new(lengths[2]) };
        let answer = library::search(&mut sheet, &mut space, &mut out, only_rotations);
        let alike = out.matrices.is(cells.0) && out.rows.is(cells.1) && out.marks.is(cells.2) && space.guarded() && sheet.is(self.bytes);
        self.tell(tally, if only_rotations { "rotations" } else { "search" }, lengths, answer, expected, alike);
    }

    fn tell<const N: usize>(&self, tally: &mut Tally, call: &str, lengths: [usize; N], answer: Answer, expected: (u64, usize), alike: bool) {
        if !alike || (answer.refusal, answer.count) != expected {
            let cells = if alike { "alike" } else { "not alike" };
            let lent = (self.words, self.floats, lengths);
            tally.differs(format!("{} {:?}, expected {:?}, cells {}, lent {:?}\n{}", call, answer, expected, cells, lent, self.hex()));
        }
    }

    /// The Rust panics at a clean solid that document 01 does not refuse.
    fn panics(&self, tally: &mut Tally, call: &str, why: &str) {
        tally.differs(format!("the Rust panics in {} of a clean solid, {}\n{}", call, why, self.hex()));
    }

    fn hex(&self) -> String {
        self.bytes.iter().map(|b| format!("{:02x}", b)).collect()
    }
}

/// The sheet with some bits or bytes wrong, the sheet of the solid after it was broken, or a sheet of rank 0 or 1.
fn broken_sheet(random: &mut Random, solid: Solid, sheet: &[u8]) -> Vec<u8> {
    match random.below(10) {
        0 => solids::low_sheet(random),
        1..=5 => solids::broken(random, solid).pack(),
        _ => solids::damaged(random, sheet.to_vec()),
    }
}

/// A solid; beside some, its sheet broken, or a workspace that is a cell too short. A solid that is not clean (01, section 6; `clean.rs`) may
/// differ by right (docs/DIFFERENCES.md) and is left out. A difference prints its sheet.
pub fn solid(random: &mut Random, tally: &mut Tally) {
    let solid = solids::some_solid(random);
    if !solid.within_limits() {
        return tally.left_out("solids that are too large");
    }
    let bytes = solid.pack();
    let (elements, entries) = solid.size();
    let (words, floats) = (16 * (elements + entries + 4), 8 * (elements + 8));
    let spare = if random.once_in(10) { 0 } else { 64 };
    judged(random, tally, &Sheet { bytes: &bytes, words: words + spare, floats: floats + spare }, false);
    if random.once_in(20) {
        let (w, f) = [(words - 1, floats + spare), (words + spare, floats - 1)][random.below(2)];
        judged(random, tally, &Sheet { bytes: &bytes, words: w, floats: f }, true);
    }
    if random.once_in(3) {
        let bytes = broken_sheet(random, solid, &bytes);
        judged(random, tally, &Sheet { bytes: &bytes, words: words + spare, floats: floats + spare }, true);
    }
}

fn judged(random: &mut Random, tally: &mut Tally, sheet: &Sheet, on_purpose: bool) {
    let judged = model::judged(sheet.bytes, sheet.words, sheet.floats);
    if on_purpose {
        tally.answered(Call::Sheets, judged.as_ref().err().copied().unwrap_or(0));
    }
    match judged {
        Ok(judged) => passed(random, tally, sheet, &judged, on_purpose),
        Err(number) => {
            if !on_purpose {
                tally.differs(format!("a solid that was to be sound is refused {} by compare/model.rs", number));
            }
            sheet.types(tally, [random.below(40), random.below(40)], (number, 0), [&[], &[]]);
            for only_rotations in [false, true] {
                sheet.members(tally, only_rotations, [0; 3].map(|_| random.below(40)), (number, 0), (&[], &[], &[]));
            }
        }
    }
}

/// What a search or rotations call has to answer: the Rust's members, or a refusal; or why the Rust panics.
fn expected_members(sheet: &[u8], judged: &Judged, only_rotations: bool) -> Result<Result<oracle::Members, u64>, String> {
    let Some(solid) = judged.solid.as_ref().filter(|s| s.dimension + 1 == s.rank()) else { return Ok(Err(8)) };
    if model::double_corner(solid) {
        return Ok(Err(9));
    }
    Ok(match oracle::Solid::read(sheet).unwrap().members(only_rotations) {
        Ok(None) => Err(10),
        Err(why) if why == "singular" => Err(11),
        // an inverse that is not finite: the Rust has an empty group or panics (docs/DIFFERENCES.md)
        _ if model::is_flat(solid) => Err(11),
        Err(why) => return Err(why),
        Ok(Some(members)) if members.rotations.is_empty() => Err(12),
        Ok(Some(members)) => Ok(members),
    })
}

/// A sheet that passed 1 to 7. One that was broken on purpose and passed all the same is compared too, but is none of the solids counted by rank.
fn passed(random: &mut Random, tally: &mut Tally, sheet: &Sheet, judged: &Judged, on_purpose: bool) {
    let mut types = oracle::Types { table: vec![], of: vec![] };
    if let Some(solid) = &judged.solid {
        if !clean(solid) {
            return tally.left_out("solids that are not clean");
        }
        match oracle::Solid::read(sheet.bytes).unwrap().types() {
            Err(why) => return sheet.panics(tally, "types", &why),
            Ok(found) => types = found,
        }
    }
    let both = [false, true].map(|only_rotations| expected_members(sheet.bytes, judged, only_rotations));
    if let Some(why) = both.iter().find_map(|found| found.as_ref().err()) {
        return sheet.panics(tally, "search", why);
    }
    let both = both.map(Result::unwrap);
    compare_types(random, tally, sheet, &types);
    for (only_rotations, found) in [false, true].into_iter().zip(&both) {
        let call = if only_rotations { Call::Rotations } else { Call::Search };
        match (&judged.solid, found) {
            (Some(solid), Ok(members)) => {
                let marks = compare_members(random, tally, sheet, solid, only_rotations, members);
                tally.answered(call, 0);
                if !on_purpose && both.iter().all(Result::is_ok) && !only_rotations {
                    tally.of_rank(Row::Solids, judged.rank, 1);
                    tally.of_rank(Row::Exchanged, judged.rank, usize::from(model::first_facet(solid) != Some(0)));
                    tally.of_rank(Row::Members, judged.rank, marks.len());
                    tally.of_rank(Row::Confirmed, judged.rank, marks.iter().filter(|m| **m == 1).count());
                }
            }
            (_, found) => {
                let number = found.as_ref().err().copied().unwrap_or(8);
                sheet.members(tally, only_rotations, [0; 3].map(|_| random.below(200)), (number, 0), (&[], &[], &[]));
                tally.answered(call, number);
            }
        }
    }
}

fn compare_types(random: &mut Random, tally: &mut Tally, sheet: &Sheet, expected: &oracle::Types) {
    let [of, table] = [&expected.of, &expected.table].map(|l| l.iter().map(|x| *x as u16).collect::<Vec<u16>>());
    let mut lengths = [of.len(), table.len()].map(|n| enough(random, n));
    sheet.types(tally, lengths, (0, table.len() / 4), [&of, &table]);
    tally.answered(Call::Types, 0);
    if random.once_in(4) && !of.is_empty() {
        let k = random.below(2);
        lengths[k] = too_short(random, [of.len(), table.len()][k]);
        sheet.types(tally, lengths, (13, 0), [&[], &[]]);
        tally.answered(Call::Types, 13);
    }
}

/// Compares the members whole and, at times, once more with too little room, when the members that fit are expected. Gives the marks.
fn compare_members(random: &mut Random, tally: &mut Tally, sheet: &Sheet, solid: &Solid, only_rotations: bool, found: &oracle::Members) -> Vec<u8> {
    let (d, v, n) = (solid.dimension, solid.points.len(), found.rotations.len());
    let rows: Vec<u16> = found.rows.iter().map(|x| *x as u16).collect();
    let marks = model::marks(solid, &found.rows);
    let sizes = [d * d, v, 1];
    let mut lengths = sizes.map(|size| enough(random, n * size));
    sheet.members(tally, only_rotations, lengths, (0, n), (&found.matrices, &rows, &marks));
    if random.once_in(4) {
        let k = random.below(3);
        lengths[k] = too_short(random, n * sizes[k]);
        let fit = lengths[k] / sizes[k];
        sheet.members(tally, only_rotations, lengths, (13, fit), (&found.matrices[..fit * d * d], &rows[..fit * v], &marks[..fit]));
        tally.answered(if only_rotations { Call::Rotations } else { Call::Search }, 13);
    }
    marks
}
