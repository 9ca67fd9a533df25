//! Times the library and the Rust on the same input, in turn and in one run. The outputs are not cleared between runs.

use crate::copyings::{flat, icosians, signed_orders};
use crate::library::{self, Lent};
use crate::random::Random;
use std::hint::black_box;

#[repr(C)]
struct Timespec {
    seconds: i64,
    nanoseconds: i64,
}

extern "C" {
    fn clock_gettime(clock: i32, time: *mut Timespec) -> i32;
}

/// The seconds of processor time that this process has had (Linux's CLOCK_PROCESS_CPUTIME_ID), which other work on the machine disturbs least.
fn now() -> f64 {
    let mut t = Timespec { seconds: 0, nanoseconds: 0 };
    assert_eq!(unsafe { clock_gettime(2, &mut t) }, 0);
    t.seconds as f64 + t.nanoseconds as f64 * 1e-9
}

/// The seconds that a run takes: the best of seven rounds of at least 50 ms for each side, taken in turn, or of fewer rounds where they take more
/// than 4 s in all.
fn timed(mut ours: impl FnMut() -> usize, mut rust: impl FnMut() -> usize) -> (f64, f64) {
    let round = |f: &mut dyn FnMut() -> usize| {
        let (start, mut runs) = (now(), 0);
        while runs == 0 || now() < start + 0.05 {
            black_box(f());
            runs += 1;
        }
        (now() - start) / runs as f64
    };
    let start = now();
    let mut best = (f64::INFINITY, f64::INFINITY);
    for rounds in 0..7 {
        if rounds > 1 && now() > start + 4.0 {
            break;
        }
        best = (best.0.min(round(&mut ours)), best.1.min(round(&mut rust)));
    }
    best
}

/// The last line of the table: its first column (the call and the family), its size, and both times.
struct Line {
    family: String,
    size: usize,
    times: (f64, f64),
}

/// One table of all times. Where a solid is larger than the one before it in its family, the line also says by how much the size, our time and the
/// Rust's time have grown.
pub struct Table {
    last: Option<Line>,
}

fn time(seconds: f64) -> String {
    match seconds {
        s if s < 1e-3 => format!("{:.1} us", s * 1e6),
        s if s < 1.0 => format!("{:.2} ms", s * 1e3),
        s => format!("{:.2} s", s),
    }
}

impl Table {
    fn new() -> Table {
        println!("| Call, family | Input | Size | Found | Here | Rust | Rust's time by ours | Growth: size, here, Rust |");
        println!("|---|---|---|---|---|---|---|---|");
        Table { last: None }
    }

    fn line(&mut self, family: &str, input: &str, size: usize, found: usize, times: (f64, f64)) {
        let growth = match &self.last {
            Some(l) if l.family == family && l.size < size => {
                format!("{:.1}, {:.1}, {:.1}", size as f64 / l.size as f64, times.0 / l.times.0, times.1 / l.times.1)
            }
            _ => String::new(),
        };
        println!("| {} | {} | {} | {} | {} | {} | {:.2} | {} |", family, input, size, found, time(times.0), time(times.1), times.1 / times.0, growth);
        self.last = Some(Line { family: family.to_owned(), size, times });
    }
}

/// Times a copying, whose size is the number of points times the number of matrices.
fn copying(table: &mut Table, input: &str, d: usize, points: &[f64], turns: &[f64]) {
    let rust = oracle::Copying::new(d, points, turns);
    let (n, count) = (rust.count(), turns.len() / (d * d));
    let (mut from, mut by) = (Lent::holding(points), Lent::holding(turns));
    let (mut copies, mut cells) = (Lent::new(n * d), Lent::new(n * count));
    let mut run = || library::copy(d as u64, &mut from, &mut by, &mut copies, &mut cells);
    let answer = run();
    assert!(answer.refusal == 0 && answer.count == n, "{}: {:?}, the Rust has {}", input, answer, n);
    let times = timed(|| run().count, || rust.count());
    table.line(&format!("copying, {} matrices in {} dimensions", count, d), input, points.len() / d * count, n, times);
}

pub fn all() {
    let mut random = Random::new(20261115);
    let mut table = Table::new();
    let orders = signed_orders(3);
    // The identity and the mirror image through the origin, which are the first and the last of the eight that leave the axes in order.
    let two = [orders[0].clone(), orders[7].clone()];
    let few = [(3, flat(&orders), vec![1, 10, 20, 40]), (4, flat(&icosians()), vec![1, 4, 16])];
    let many = (3, flat(&two), vec![125, 250, 500, 1000]);
    for (d, turns, sizes) in few.into_iter().chain([many]) {
        for n in sizes {
            let seeds: Vec<f64> = (0..n * d).map(|_| 10.0 * random.unit()).collect();
            copying(&mut table, &format!("{} seed{}", n, if n == 1 { "" } else { "s" }), d, &seeds, &turns);
        }
    }
    on_solids::all(&mut table, &mut random);
}

pub use on_solids::polychora;

mod on_solids {
    use super::{timed, Table};
    use crate::families::{antiprism, asymmetric, cell_120, cell_16, cell_24, cell_5, cell_600, disphenoid, great_dodecahedron, uniform};
    use crate::library::{self, Lent, Members, Workspace};
    use crate::random::Random;
    use crate::solids::{bipyramid, compound, dihedron, dyad, polygon, product, pyramid, tetrahemihexahedron, Solid};

    /// Our call also reads and judges the sheet, while the Rust's solid is built before. A solid's size is the number of its elements.
    fn types(table: &mut Table, family: &str, name: &str, solid: &Solid) {
        let sheet = solid.pack();
        let rust = oracle::Solid::read(&sheet).unwrap();
        let (elements, entries) = solid.size();
        let mut space = Workspace::new(16 * (elements + entries + 4), 8 * (elements + 8));
        let (mut of, mut cells) = (Lent::new(elements), Lent::new(4 * elements));
        let mut lent = Lent::holding(&sheet);
        let answer = library::types(&mut lent, &mut space, &mut of, &mut cells);
        let n = rust.type_count();
        assert!(answer.refusal == 0 && answer.count == n, "{}: {:?}, the Rust has {}", name, answer, n);
        let times = timed(|| library::types(&mut lent, &mut space, &mut of, &mut cells).count, || rust.type_count());
        table.line(&format!("types, {}", family), name, elements, n, times);
    }

    /// Only our search works out marks.
    fn search(table: &mut Table, family: &str, name: &str, solid: &Solid, only_rotations: bool) {
        let sheet = solid.pack();
        let mut rust = oracle::Solid::read(&sheet).unwrap();
        let (elements, entries) = solid.size();
        let (d, v, n) = (solid.dimension, solid.points.len(), rust.member_count(only_rotations));
        let mut space = Workspace::new(16 * (elements + entries + 4), 8 * (elements + 8));
        let mut out = Members { matrices: Lent::new(n * d * d), rows: Lent::new(n * v), marks: Lent::new(n) };
        let mut lent = Lent::holding(&sheet);
        let answer = library::search(&mut lent, &mut space, &mut out, only_rotations);
        assert!(answer.refusal == 0 && answer.count == n, "{}: {:?}, the Rust has {}", name, answer, n);
        let times = timed(|| library::search(&mut lent, &mut space, &mut out, only_rotations).count, || rust.member_count(only_rotations));
        table.line(&format!("{}, {}", if only_rotations { "rotations" } else { "search" }, family), name, elements, n, times);
    }

    fn regular(n: usize, step: usize) -> Solid {
        polygon(&vec![1.0; n], step)
    }

    fn prism(n: usize) -> Solid {
        product(&regular(n, 1), &dyad(-1.0, 1.0))
    }

    /// The regular solids in four dimensions, by name.
    pub fn polychora() -> Vec<(String, Solid)> {
        let side = dyad(-1.0, 1.0);
        let square = product(&side, &side);
        let all = [
            ("5-cell", cell_5()),
            ("16-cell", cell_16()),
            ("tesseract", product(&square, &square)),
            ("24-cell", cell_24()),
            ("600-cell", cell_600()),
            ("120-cell", cell_120()),
        ];
        all.into_iter().map(|(name, solid)| (name.to_owned(), solid)).collect()
    }

    fn families(random: &mut Random) -> Vec<(&'static str, Vec<(String, Solid)>)> {
        let sized = |sizes: &[usize], make: &dyn Fn(usize) -> Solid| sizes.iter().map(|n| (n.to_string(), make(*n))).collect::<Vec<_>>();
        let mut named = uniform().into_iter().map(|(name, solid)| (name.to_owned(), solid));
        vec![
            ("dyad", vec![("from -1 to 1".to_owned(), dyad(-1.0, 1.0))]),
            ("polygons", sized(&[3, 4, 6, 12, 24, 48, 96, 192, 384, 768], &|n| regular(n, 1))),
            ("polygrams", sized(&[5, 11, 23, 47], &|n| regular(n, 2))),
            ("prisms", sized(&[3, 6, 12, 24, 48, 96, 160, 320, 640], &prism)),
            ("antiprisms", sized(&[3, 6, 12], &antiprism)),
            ("pyramids", sized(&[4, 8, 16, 32], &|n| pyramid(&regular(n, 1), -0.5, 1.0))),
            ("bipyramids", sized(&[4, 8, 16, 32], &|n| bipyramid(&regular(n, 1), 1.0, -1.0))),
            ("Platonic", named.by_ref().take(5).collect()),
            ("Archimedean", named.collect()),
            ("compounds of two prisms", sized(&[4, 8, 16, 32], &|n| compound(&prism(n), &prism(n).scaled(2.0)))),
            ("stars", vec![("great dodecahedron".to_owned(), great_dodecahedron())]),
            ("facet 0 through the centre", vec![("tetrahemihexahedron".to_owned(), tetrahemihexahedron())]),
            ("members that are no symmetries", vec![("disphenoid".to_owned(), disphenoid())]),
            ("dihedra", sized(&[4, 8, 16, 32], &|n| dihedron(&regular(n, 1), 1.0))),
            ("duoprisms", sized(&[3, 4, 6, 8, 12], &|n| product(&regular(n, 1), &regular(n, 1)))),
            ("polychora", polychora()),
            ("hulls of random points", [125, 250, 500].map(|n| (n.to_string(), asymmetric(n, random))).into()),
        ]
    }

    pub fn all(table: &mut Table, random: &mut Random) {
        let families = families(random);
        for (family, solids) in &families {
            solids.iter().for_each(|(name, solid)| types(table, family, name, solid));
        }
        for (family, solids) in &families {
            solids.iter().for_each(|(name, solid)| search(table, family, name, solid, false));
        }
        for (family, solids) in &families {
            let (name, solid) = solids.iter().max_by_key(|(_, solid)| solid.size()).unwrap();
            search(table, family, name, solid, true);
        }
    }
}
