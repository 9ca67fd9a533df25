//! Random solids and their sheets (document 01, section 2). They are built from polygons by products, cones and suspensions, and then put together,
//! moved and renumbered, so that the symmetries, the hulls and the exchange of facets are all met often.

use crate::model;
use crate::random::Random;
use std::f64::consts::PI;

/// A solid of rank R = lists.len() + 2, in which lists[i] holds the subs of the elements of rank i + 2.
#[derive(Clone)]
pub struct Solid {
    pub dimension: usize,
    pub points: Vec<Vec<f64>>,
    pub lists: Vec<Vec<Vec<usize>>>,
}

impl Solid {
    pub fn rank(&self) -> usize {
        self.lists.len() + 2
    }

    /// How many elements of rank r there are, where the least element and the top count too.
    pub fn count(&self, r: usize) -> usize {
        match r {
            0 => 1,
            1 => self.points.len(),
            _ if r == self.rank() => 1,
            _ => self.lists[r - 2].len(),
        }
    }

    /// The subs of an element of rank 1 to R.
    pub fn subs(&self, r: usize, i: usize) -> Vec<usize> {
        match r {
            1 => vec![0],
            _ if r == self.rank() => (0..self.count(r - 1)).collect(),
            _ => self.lists[r - 2][i].clone(),
        }
    }

    /// The vertices of an element, rising.
    pub fn vertices(&self, r: usize, i: usize) -> Vec<usize> {
        if r == 1 {
            return vec![i];
        }
        let mut all: Vec<usize> = self.subs(r, i).iter().flat_map(|s| self.vertices(r - 1, *s)).collect();
        all.sort_unstable();
        all.dedup();
        all
    }

    /// The solid with these subs of each element at each rank from 2 on.
    pub fn new(points: Vec<Vec<f64>>, mut lists: Vec<Vec<Vec<usize>>>) -> Solid {
        lists.iter_mut().flatten().for_each(|l| l.sort_unstable());
        Solid { dimension: points[0].len(), points, lists }
    }

    pub fn pack(&self) -> Vec<u8> {
        let mut bits = Bits::default();
        bits.put(self.rank() as u64, 3);
        bits.put(self.dimension as u64, 3);
        (1..self.rank()).for_each(|r| bits.put(self.count(r) as u64, 12));
        self.points.iter().flatten().for_each(|x| bits.put(x.to_bits(), 64));
        for list in self.lists.iter().flatten() {
            bits.put(list.len() as u64, 12);
            list.iter().for_each(|s| bits.put(*s as u64, 11));
        }
        bits.bytes
    }

    /// Whether the solid keeps to the limits on counts and entries.
    pub fn within_limits(&self) -> bool {
        (1..self.rank()).all(|r| self.count(r) <= 2048) && self.lists.iter().all(|l| l.iter().map(Vec::len).sum::<usize>() <= 8192)
    }

    /// How many proper elements and how many stored entries there are.
    pub fn size(&self) -> (usize, usize) {
        ((1..self.rank()).map(|r| self.count(r)).sum(), self.lists.iter().flatten().map(Vec::len).sum())
    }
}

/// Bits, the most significant first.
#[derive(Default)]
struct Bits {
    bytes: Vec<u8>,
    used: usize,
}

impl Bits {
    fn put(&mut self, value: u64, width: usize) {
        for i in (0..width).rev() {
            if self.used % 8 == 0 {
                self.bytes.push(0);
            }
            *self.bytes.last_mut().unwrap() |= ((value >> i & 1) as u8) << (7 - self.used % 8);
            self.used += 1;
        }
    }
}

// ---- building

pub fn dyad(a: f64, b: f64) -> Solid {
    Solid::new(vec![vec![a], vec![b]], vec![])
}

/// The polygon whose vertices lie at these distances, each turned from the one before by `step` of the n parts of a full turn.
pub fn polygon(radii: &[f64], step: usize) -> Solid {
    let n = radii.len();
    let points = (0..n).map(|k| {
        let angle = 2.0 * PI * (k * step) as f64 / n as f64;
        vec![radii[k] * angle.cos(), radii[k] * angle.sin()]
    });
    Solid::new(points.collect(), vec![(0..n).map(|k| vec![k, (k + 1) % n]).collect()])
}

/// The product, in which an element of rank i and one of rank j give one of rank i + j - 1.
pub fn product(p: &Solid, q: &Solid) -> Solid {
    let (m, n) = (p.rank(), q.rank());
    let place = |i: usize, e: usize, j: usize, f: usize| {
        let before: usize = (1..i).filter(|k| i + j - k <= n).map(|k| p.count(k) * q.count(i + j - k)).sum();
        before + e * q.count(j) + f
    };
    let points = p.points.iter().flat_map(|a| q.points.iter().map(move |b| [&a[..], &b[..]].concat())).collect();
    let mut lists = Vec::new();
    for r in 2..m + n - 1 {
        let mut elements = Vec::new();
        for i in (1..=m).filter(|i| *i <= r && r + 1 - i <= n) {
            let j = r + 1 - i;
            for e in 0..p.count(i) {
                for f in 0..q.count(j) {
                    let mut subs = Vec::new();
                    if i > 1 {
                        subs.extend(p.subs(i, e).iter().map(|s| place(i - 1, *s, j, f)));
                    }
                    if j > 1 {
                        subs.extend(q.subs(j, f).iter().map(|s| place(i, e, j - 1, *s)));
                    }
                    elements.push(subs);
                }
            }
        }
        lists.push(elements);
    }
    Solid::new(points, lists)
}

/// The solid's elements below rank `below`, and the cone from each apex over every element. With one apex and the top included this is a pyramid, and
/// with two apexes and the top left out it is a bipyramid.
fn cones(p: &Solid, below: usize, base: f64, apexes: &[f64]) -> Solid {
    let d = p.dimension;
    let mut points: Vec<Vec<f64>> = p.points.iter().map(|a| [&a[..], &[base]].concat()).collect();
    points.extend(apexes.iter().map(|h| [vec![0.0; d], vec![*h]].concat()));
    // These two give how many elements of rank r are kept themselves, and the number of the cone from apex a over an element, one rank higher.
    let kept = |r: usize| if r < below { p.count(r) } else { 0 };
    let cone = |r: usize, i: usize, a: usize| kept(r + 1) + a * p.count(r) + i;
    let mut lists = Vec::new();
    for r in 2..=p.rank() {
        let mut elements: Vec<Vec<usize>> = (0..kept(r)).map(|i| p.subs(r, i)).collect();
        for a in 0..apexes.len() {
            for i in 0..p.count(r - 1) {
                let mut subs = vec![i];
                subs.extend(p.subs(r - 1, i).iter().map(|s| cone(r - 2, *s, a)));
                elements.push(subs);
            }
        }
        lists.push(elements);
    }
    Solid::new(points, lists)
}

pub fn pyramid(p: &Solid, base: f64, apex: f64) -> Solid {
    cones(p, p.rank() + 1, base, &[apex])
}

pub fn bipyramid(p: &Solid, up: f64, down: f64) -> Solid {
    cones(p, p.rank(), 0.0, &[up, down])
}

/// A solid of four triangles and three squares through the centre, on the vertices of an octahedron.
pub fn tetrahemihexahedron() -> Solid {
    let points: Vec<Vec<f64>> = (0..6).map(|v| (0..3).map(|i| if v / 2 == i { 1.0 - 2.0 * (v % 2) as f64 } else { 0.0 }).collect()).collect();
    let mut edges = Vec::new();
    for a in 0..6 {
        edges.extend((a + 1..6).filter(|b| b / 2 != a / 2).map(|b| vec![a, b]));
    }
    let edge = |a: usize, b: usize| edges.iter().position(|e| *e == [a.min(b), a.max(b)]).unwrap();
    let square = |a: usize, b: usize| vec![edge(a, b), edge(b, a + 1), edge(a + 1, b + 1), edge(b + 1, a)];
    let mut faces = vec![square(0, 2), square(0, 4), square(2, 4)];
    for (a, b, c) in [(0, 2, 4), (0, 3, 5), (1, 2, 5), (1, 3, 4)] {
        faces.push(vec![edge(a, b), edge(b, c), edge(a, c)]);
    }
    Solid::new(points, vec![edges.clone(), faces])
}

/// A solid with the same facet twice: a polygon and its back.
pub fn dihedron(p: &Solid, height: f64) -> Solid {
    let points = p.points.iter().map(|a| [&a[..], &[height]].concat()).collect();
    let mut lists = p.lists.clone();
    lists.push(vec![(0..p.count(p.rank() - 1)).collect(); 2]);
    Solid::new(points, lists)
}

/// Both solids side by side.
pub fn compound(p: &Solid, q: &Solid) -> Solid {
    let mut all = p.clone();
    all.points.extend(q.points.iter().cloned());
    for (i, list) in q.lists.iter().enumerate() {
        let shift = p.count(i + 1);
        all.lists[i].extend(list.iter().map(|l| l.iter().map(|s| s + shift).collect()));
    }
    all
}

// ---- moving

impl Solid {
    fn moved(mut self, f: impl Fn(&[f64]) -> Vec<f64>) -> Solid {
        self.points = self.points.iter().map(|p| f(p)).collect();
        self
    }

    pub fn turned(self, rows: &[Vec<f64>]) -> Solid {
        self.moved(|p| rows.iter().map(|r| r.iter().zip(p).map(|(a, b)| a * b).sum()).collect())
    }

    pub fn scaled(self, by: f64) -> Solid {
        self.moved(|p| p.iter().map(|x| x * by).collect())
    }

    pub fn shaken(mut self, random: &mut Random, by: f64) -> Solid {
        self.points.iter_mut().flatten().for_each(|x| *x += by * random.unit());
        self
    }

    /// The solid moved so that the hull of this facet goes through the origin.
    pub fn sunk(self, facet: usize) -> Solid {
        let on = self.vertices(self.rank() - 1, facet);
        let offset = self.points[on[0]].clone();
        let mut basis: Vec<Vec<f64>> = Vec::new();
        let dot = |a: &[f64], b: &[f64]| a.iter().zip(b).map(|(x, y)| x * y).sum::<f64>();
        for v in &on {
            let mut w: Vec<f64> = self.points[*v].iter().zip(&offset).map(|(a, b)| a - b).collect();
            for b in &basis {
                let along = dot(&w, b);
                w.iter_mut().zip(b).for_each(|(x, y)| *x -= along * y);
            }
            let length = dot(&w, &w).sqrt();
            if length > 1e-6 {
                basis.push(w.iter().map(|x| x / length).collect());
            }
        }
        let mut foot = offset.clone();
        for b in &basis {
            let along = -dot(&offset, b);
            foot.iter_mut().zip(b).for_each(|(x, y)| *x += along * y);
        }
        self.moved(|p| p.iter().zip(&foot).map(|(x, y)| x - y).collect())
    }

    /// The solid in which element i of rank r has become element order[i].
    pub fn renumbered(mut self, r: usize, order: &[usize]) -> Solid {
        if r == 1 {
            let old = self.points.clone();
            order.iter().enumerate().for_each(|(i, to)| self.points[*to] = old[i].clone());
        } else {
            let old = self.lists[r - 2].clone();
            order.iter().enumerate().for_each(|(i, to)| self.lists[r - 2][*to] = old[i].clone());
        }
        if r + 1 < self.rank() {
            for list in &mut self.lists[r - 1] {
                list.iter_mut().for_each(|s| *s = order[*s]);
                list.sort_unstable();
            }
        }
        self
    }

    pub fn relabelled(mut self, random: &mut Random) -> Solid {
        for r in 1..self.rank() {
            let order = random.shuffled(self.count(r));
            self = self.renumbered(r, &order);
        }
        self
    }

    /// The solid in which this facet has become facet 0.
    pub fn facet_first(self, facet: usize) -> Solid {
        let r = self.rank() - 1;
        let mut order: Vec<usize> = (0..self.count(r)).collect();
        order.swap(0, facet);
        self.renumbered(r, &order)
    }
}

// ---- choosing

/// A random dyad. One in four has columns that are singular, or whose inverse is not finite.
fn some_dyad(random: &mut Random) -> Solid {
    match random.below(8) {
        0 => dyad(0.0, 1.0),
        1 => dyad(1e-310, 1.0),
        2..=4 => dyad(-1.0, 1.0 + random.unit()),
        _ => dyad(-1.0, 1.0),
    }
}

fn some_polygon(random: &mut Random) -> Solid {
    let n = random.among(3, 12);
    let size = 0.5 + random.below(4) as f64 * 0.5;
    let mut radii = vec![size; n];
    match random.below(6) {
        0 => radii.iter_mut().step_by(2).for_each(|r| *r *= 1.5),
        1 => radii.iter_mut().for_each(|r| *r += 0.3 * random.unit()),
        _ => {}
    }
    let steps: Vec<usize> = (1..=n / 2).filter(|s| (2..=n / 2).all(|k| s % k != 0 || n % k != 0)).collect();
    let step = if random.once_in(3) { steps[random.below(steps.len())] } else { 1 };
    polygon(&radii, step)
}

fn some_polyhedron(random: &mut Random) -> Solid {
    let h = 0.5 + random.below(3) as f64 * 0.5;
    let p = some_polygon(random);
    match random.below(8) {
        0 => product(&p, &dyad(-h, h)),
        1 => product(&product(&dyad(-1.0, 1.0), &dyad(-1.0, 1.0)), &dyad(-1.0, 1.0)),
        2 => pyramid(&p, -0.5, h),
        3 => pyramid(&p, 0.0, h),
        4 => bipyramid(&p, h, -h),
        5 => bipyramid(&polygon(&[1.0; 4], 1), 1.0, -1.0),
        6 => tetrahemihexahedron(),
        _ => dihedron(&p, h),
    }
}

fn some_polychoron(random: &mut Random) -> Solid {
    let h = 0.5 + random.below(3) as f64 * 0.5;
    match random.below(6) {
        0 => product(&some_polygon(random), &some_polygon(random)),
        1 => product(&some_polyhedron(random), &dyad(-h, h)),
        2 => pyramid(&some_polyhedron(random), -0.25, h),
        3 => pyramid(&some_polyhedron(random), 0.0, h),
        4 => bipyramid(&some_polyhedron(random), h, -h),
        _ => {
            let square = polygon(&[1.0; 4], 1);
            if random.once_in(2) { product(&square, &square) } else { bipyramid(&bipyramid(&square, 1.0, -1.0), 1.0, -1.0) }
        }
    }
}

/// A quadrangle whose first two columns are nearly parallel. Mostly no flag passes in it, not even that of the identity.
fn sliver(random: &mut Random) -> Solid {
    let mut solid = polygon(&[1.0; 4], 1);
    let x = 900.001 + 1e-3 * random.unit();
    solid.points = vec![vec![1e3, 1.0], vec![9e5, x], vec![-1e6, 7.0], vec![3.0, -1e6]];
    solid
}

/// A solid of any rank from 2 to 5, mostly of rank 4 or 5. Half of those above rank 2 have a facet through the origin as facet 0.
pub fn some_solid(random: &mut Random) -> Solid {
    if random.once_in(80) {
        return sliver(random);
    }
    let mut solid = match random.below(20) {
        0 => some_dyad(random),
        1..=4 => some_polygon(random),
        5..=12 => some_polyhedron(random),
        _ => some_polychoron(random),
    };
    let d = solid.dimension;
    if solid.rank() > 2 && random.once_in(6) {
        let other = match random.below(3) {
            0 => solid.clone().scaled(-1.0),
            1 => solid.clone().scaled(2.0),
            _ => solid.clone().turned(&random.turn(d)),
        };
        solid = compound(&solid, &other);
    }
    let sunk = solid.rank() > 2 && random.once_in(2);
    if sunk {
        let facet = random.below(solid.count(solid.rank() - 1));
        solid = solid.sunk(facet);
    }
    if random.once_in(2) {
        solid = solid.turned(&random.turn(d));
    }
    if random.once_in(3) {
        solid = solid.scaled(10f64.powi(random.below(6) as i32 - 2));
    }
    match random.below(12) {
        0 => solid = solid.shaken(random, 1e-2),
        1..=3 => solid = solid.shaken(random, 1e-10),
        // by about EPS, where it is decided what is clean
        4 => {
            let by = [1e-8, 4e-8, 1e-7][random.below(3)];
            solid = solid.shaken(random, by);
        }
        _ => {}
    }
    if !random.once_in(4) {
        solid = solid.relabelled(random);
    }
    if sunk || random.once_in(4) {
        if let Some(facet) = centred_facet(&solid) {
            solid = solid.facet_first(facet);
        }
    }
    if random.once_in(40) {
        solid.dimension -= 1;
        solid.points.iter_mut().for_each(|p| p.truncate(d - 1));
    }
    solid
}

/// A facet whose hull goes through the origin, if there is one.
pub fn centred_facet(solid: &Solid) -> Option<usize> {
    let r = solid.rank() - 1;
    (0..solid.count(r)).find(|f| model::distance(solid, r, *f) <= model::EPS)
}

/// A solid with an element too few or too many, or with a list that is another's or lacks an entry. Mostly it is loose or mitred.
pub fn broken(random: &mut Random, mut solid: Solid) -> Solid {
    let r = random.among(1, solid.rank() - 1);
    let facets = r + 1 == solid.rank();
    if r == 1 {
        solid.points.push(vec![7.0; solid.dimension]);
        return solid;
    }
    let list = &mut solid.lists[r - 2];
    let (i, j) = (random.below(list.len()), random.below(list.len()));
    match random.below(3) {
        0 if facets && list.len() > 1 => {
            list.remove(i);
        }
        1 if list[i].len() > 1 => {
            list[i].pop();
        }
        _ => list[i] = list[j].clone(),
    }
    solid
}

/// A sheet of rank 0 or 1, which has no proper element.
pub fn low_sheet(random: &mut Random) -> Vec<u8> {
    let (rank, dimension) = (random.below(2), random.below(5));
    let mut bits = Bits::default();
    bits.put(rank as u64, 3);
    bits.put(dimension as u64, 3);
    (0..rank * dimension).for_each(|_| bits.put(random.unit().to_bits(), 64));
    bits.bytes
}

/// The sheet with some of its bits flipped, or with bytes taken out or put in.
pub fn damaged(random: &mut Random, mut sheet: Vec<u8>) -> Vec<u8> {
    for _ in 0..random.among(1, 3) {
        let n = sheet.len();
        match random.below(4) {
            0 if n > 0 => {
                sheet.remove(random.below(n));
            }
            1 => sheet.insert(random.below(n + 1), random.below(256) as u8),
            _ if n > 0 => sheet[random.below(n)] ^= 1 << random.below(8),
            _ => {}
        }
    }
    sheet
}
