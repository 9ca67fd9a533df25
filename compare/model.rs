//! What the oracle does not have, written from document 01's own sentences: the refusals before a search, the candidates that a search tests,
//! the marks, and what a copying refuses and leaves.

use crate::solids::Solid;
use std::collections::BTreeMap;

pub const EPS: f64 = 1e-7;
const LIMIT: f64 = 1_048_576.0;
const MOST: usize = 2048;

// ---- sheets

struct Reader<'a> {
    bytes: &'a [u8],
    at: usize,
}

impl Reader<'_> {
    fn take(&mut self, width: usize) -> Result<u64, u64> {
        if self.at + width > self.bytes.len() * 8 {
            return Err(1);
        }
        let mut n = 0;
        for _ in 0..width {
            n = n << 1 | u64::from(self.bytes[self.at / 8] >> (7 - self.at % 8) & 1);
            self.at += 1;
        }
        Ok(n)
    }
}

/// A sheet that passed 1 to 7; the rank is kept apart, since it may be 0 or 1.
pub struct Judged {
    pub rank: usize,
    pub solid: Option<Solid>,
}

/// "Fields are judged as they come, then 1 for the end, 7, 5, 6."
pub fn judged(sheet: &[u8], words: usize, floats: usize) -> Result<Judged, u64> {
    let mut bits = Reader { bytes: sheet, at: 0 };
    let rank = bits.take(3)? as usize;
    refuse(rank > 5, 2)?;
    let dimension = bits.take(3)? as usize;
    refuse(dimension > 4, 2)?;
    let mut counts = Vec::new();
    for _ in 1..rank {
        let count = bits.take(12)? as usize;
        refuse(count == 0 || count > MOST, 2)?;
        counts.push(count);
    }
    let corners = if rank < 2 { rank } else { counts[0] };
    let mut points = Vec::new();
    for _ in 0..corners {
        let mut p = Vec::new();
        for _ in 0..dimension {
            let x = f64::from_bits(bits.take(64)?);
            refuse(!(x.abs() <= LIMIT), 3)?;
            p.push(x);
        }
        points.push(p);
    }
    let mut lists = Vec::new();
    for r in 2..rank {
        let (mut elements, mut entries) = (Vec::new(), 0);
        for _ in 0..counts[r - 1] {
            let length = bits.take(12)? as usize;
            entries += length;
            refuse(entries > 8192, 2)?;
            refuse(length == 0, 4)?;
            let mut subs: Vec<usize> = Vec::new();
            for _ in 0..length {
                let s = bits.take(11)? as usize;
                refuse(s >= counts[r - 2] || subs.last().is_some_and(|l| s <= *l), 4)?;
                subs.push(s);
            }
            elements.push(subs);
        }
        lists.push(elements);
    }
    let rest = sheet.len() * 8 - bits.at;
    refuse(rest >= 8, 1)?;
    refuse(bits.take(rest)? != 0, 1)?;
    let solid = if rank >= 2 { Some(Solid { dimension, points, lists }) } else { None };
    let (elements, entries) = solid.as_ref().map_or((0, 0), |s| s.size());
    refuse(words < 16 * (elements + entries + 4) || floats < 8 * (elements + 8), 7)?;
    if let Some(s) = &solid {
        refuse((1..rank - 1).any(|r| is_loose(s, r)), 5)?;
        refuse((2..=rank).any(|r| !is_diamond(s, r)), 6)?;
    }
    Ok(Judged { rank, solid })
}

fn refuse(broken: bool, number: u64) -> Result<(), u64> {
    if broken { Err(number) } else { Ok(()) }
}

fn is_loose(s: &Solid, r: usize) -> bool {
    let mut held = vec![false; s.count(r)];
    (0..s.count(r + 1)).flat_map(|i| s.subs(r + 1, i)).for_each(|e| held[e] = true);
    held.contains(&false)
}

fn is_diamond(s: &Solid, r: usize) -> bool {
    (0..s.count(r)).all(|i| {
        let mut between = vec![0; s.count(r - 2)];
        s.subs(r, i).iter().flat_map(|f| s.subs(r - 1, *f)).for_each(|h| between[h] += 1);
        between.iter().all(|n| *n == 0 || *n == 2)
    })
}

/// Refusal 9: are two vertices within EPS of each other on every axis?
pub fn double_corner(s: &Solid) -> bool {
    let near = |a: &[f64], b: &[f64]| a.iter().zip(b).all(|(x, y)| (x - y).abs() <= EPS);
    (0..s.points.len()).any(|i| (0..i).any(|j| near(&s.points[i], &s.points[j])))
}

// ---- hulls and distances

pub struct Hull {
    dimension: usize,
    offset: Option<Vec<f64>>,
    basis: Vec<Vec<f64>>,
}

fn dot(a: &[f64], b: &[f64]) -> f64 {
    let mut products = a.iter().zip(b).map(|(x, y)| x * y);
    let first = products.next().unwrap_or(0.0);
    products.fold(first, |sum, x| sum + x)
}

fn minus(a: &[f64], b: &[f64]) -> Vec<f64> {
    a.iter().zip(b).map(|(x, y)| x - y).collect()
}

impl Hull {
    pub fn empty(dimension: usize) -> Hull {
        Hull { dimension, offset: None, basis: Vec::new() }
    }

    fn project(&self, p: &[f64]) -> Vec<f64> {
        let offset = self.offset.as_ref().unwrap();
        let d = minus(p, offset);
        let mut q = offset.clone();
        for b in &self.basis {
            let along = dot(&d, b);
            q.iter_mut().zip(b).for_each(|(x, y)| *x += y * along);
        }
        q
    }

    pub fn add(&mut self, p: &[f64]) {
        if self.offset.is_none() {
            self.offset = Some(p.to_vec());
        } else if self.basis.len() < self.dimension {
            let v = minus(p, &self.project(p));
            let length = dot(&v, &v).sqrt();
            if length > EPS {
                self.basis.push(v.iter().map(|x| x / length).collect());
            }
        }
    }

    pub fn distance(&self) -> f64 {
        let origin = vec![0.0; self.dimension];
        let v = minus(&origin, &self.project(&origin));
        dot(&v, &v).sqrt()
    }
}

/// The distance of an element's hull from the origin.
pub fn distance(s: &Solid, r: usize, i: usize) -> f64 {
    let mut hull = Hull::empty(s.dimension);
    s.vertices(r, i).iter().for_each(|v| hull.add(&s.points[*v]));
    hull.distance()
}

/// The distances of all proper elements, by rank; rank 0 has none.
pub fn distances(s: &Solid) -> Vec<Vec<f64>> {
    (0..s.rank()).map(|r| if r == 0 { vec![] } else { (0..s.count(r)).map(|i| distance(s, r, i)).collect() }).collect()
}

/// The distance class of each proper element, by rank: "A distance takes the smallest listed value strictly nearer than EPS, else joins the list".
fn classes(distances: &[Vec<f64>]) -> Vec<Vec<f64>> {
    let mut listed: Vec<f64> = Vec::new();
    let mut class = |d: f64| {
        let near = listed.iter().copied().filter(|l| (l - d).abs() < EPS).fold(f64::INFINITY, f64::min);
        if near.is_infinite() {
            listed.push(d);
            return d;
        }
        near
    };
    distances.iter().map(|of_rank| of_rank.iter().copied().map(&mut class).collect()).collect()
}

// ---- types

/// Each key's number; numbers go from 0 by first appearance.
fn numbered<K: Ord>(keys: impl Iterator<Item = K>) -> Vec<usize> {
    let mut met = BTreeMap::new();
    keys.map(|k| {
        let next = met.len();
        *met.entry(k).or_insert(next)
    })
    .collect()
}

/// The type of each element, by rank from 0 to R, when the sweeps end. The distances are those of `distances`.
fn types(s: &Solid, distances: &[Vec<f64>]) -> Vec<Vec<usize>> {
    let rank = s.rank();
    let subs: Vec<Vec<Vec<usize>>> = (0..=rank).map(|r| (0..s.count(r)).map(|i| if r == 0 { vec![] } else { s.subs(r, i) }).collect()).collect();
    let mut sups: Vec<Vec<Vec<usize>>> = subs.iter().map(|of_rank| vec![vec![]; of_rank.len()]).collect();
    for r in 1..=rank {
        for (i, l) in subs[r].iter().enumerate() {
            l.iter().for_each(|e| sups[r - 1][*e].push(i));
        }
    }
    let mut state: Vec<Vec<usize>> = classes(distances).iter().map(|of_rank| numbered(of_rank.iter().map(|d| d.to_bits()))).collect();
    state[0] = vec![0];
    state.push(vec![0]);
    let step = |state: &mut Vec<Vec<usize>>, r: usize, neighbours: &[Vec<usize>], beside: usize| {
        let keys = neighbours.iter().zip(&state[r]).map(|(near, t)| {
            let mut of: Vec<usize> = near.iter().map(|n| state[beside][*n]).collect();
            of.sort_unstable();
            (*t, of)
        });
        state[r] = numbered(keys);
    };
    // "Sweeps end when one leaves the number of types unchanged, the first never"
    let mut before = None;
    loop {
        (1..rank).for_each(|r| step(&mut state, r, &subs[r], r - 1));
        (1..rank).rev().for_each(|r| step(&mut state, r, &sups[r], r + 1));
        let now: usize = state[1..rank].iter().map(|of| of.iter().max().unwrap() + 1).sum();
        if before == Some(now) {
            return state;
        }
        before = Some(now);
    }
}

// ---- marks

/// The marks of these rows, which stand one after another with V numbers each.
pub fn marks(s: &Solid, rows: &[usize]) -> Vec<u8> {
    let sets: Vec<Vec<Vec<usize>>> = (0..s.rank()).map(|r| if r == 0 { vec![] } else { (0..s.count(r)).map(|i| s.vertices(r, i)).collect() }).collect();
    let classes = classes(&distances(s));
    let apart = sets.iter().all(|of_rank| {
        let mut sorted = of_rank.clone();
        sorted.sort();
        sorted.windows(2).all(|w| w[0] != w[1])
    });
    rows.chunks(s.points.len()).map(|row| u8::from(apart && is_confirmed(s, &sets, &classes, row))).collect()
}

fn is_confirmed(s: &Solid, sets: &[Vec<Vec<usize>>], classes: &[Vec<f64>], row: &[usize]) -> bool {
    let mut seen = vec![false; row.len()];
    row.iter().for_each(|v| seen[*v] = true);
    if seen.contains(&false) {
        return false;
    }
    let mut below: Vec<usize> = vec![0];
    for r in 1..s.rank() {
        let mut to = Vec::new();
        for i in 0..s.count(r) {
            let mut image: Vec<usize> = sets[r][i].iter().map(|v| row[*v]).collect();
            image.sort_unstable();
            let Some(j) = sets[r].iter().position(|set| *set == image) else { return false };
            let mut subs: Vec<usize> = s.subs(r, i).iter().map(|e| below[*e]).collect();
            subs.sort_unstable();
            if classes[r][i] != classes[r][j] || subs != s.subs(r, j) {
                return false;
            }
            to.push(j);
        }
        below = to;
    }
    true
}

// ---- candidates

/// "The first facet whose hull is further than EPS from the origin". Where there is none, a search is refused 10.
pub fn first_facet(s: &Solid) -> Option<usize> {
    let r = s.rank() - 1;
    (0..s.count(r)).find(|f| distance(s, r, *f) > EPS)
}

/// The facet "changes places with facet 0". For R = 2 the facets are vertices, which have one and the same sub, and coordinates don't move.
fn exchanged(s: &Solid, facet: usize) -> Solid {
    let mut s = s.clone();
    if let Some(facets) = s.lists.last_mut() {
        facets.swap(0, facet);
    }
    s
}

/// The flags, each with an element of every rank from 0 to R, in order: the vertex moves fastest. The first takes the first sub at each rank.
fn flags(s: &Solid) -> Vec<Vec<usize>> {
    let mut all = vec![vec![0]];
    for r in (0..s.rank()).rev() {
        all = all.iter().flat_map(|above| s.subs(r + 1, above[0]).into_iter().map(move |e| [&[e], &above[..]].concat())).collect();
    }
    all
}

/// "A flag's columns: its vertex; then, D-1 times, change ranks 1 to R-1 in turn and take the vertex."
fn columns(s: &Solid, flag: &[usize]) -> Vec<Vec<f64>> {
    let mut flag = flag.to_vec();
    let mut columns = vec![s.points[flag[1]].clone()];
    for _ in 1..s.dimension {
        for r in 1..s.rank() {
            let other = |e: &usize| *e != flag[r] && s.subs(r, *e).contains(&flag[r - 1]);
            flag[r] = s.subs(r + 1, flag[r + 1]).into_iter().find(other).expect("two between");
        }
        columns.push(s.points[flag[1]].clone());
    }
    columns
}

/// Refusal 11, asked where D = R - 1 and the search is not refused 10: are the first columns singular, or is their inverse not finite?
pub fn is_flat(s: &Solid) -> bool {
    first_facet(s).is_some_and(|facet| first_inverse(&exchanged(s, facet)).is_none())
}

/// The inverse of the first flag's columns, row by row. There is none where they are singular or it is not finite.
fn first_inverse(s: &Solid) -> Option<Vec<Vec<f64>>> {
    inverse(&columns(s, &flags(s)[0])).filter(|rows| rows.iter().flatten().all(|x| x.is_finite()))
}

/// What stands when a search has passed 8, 9, 10 and 11: the solid with its facets exchanged, its distances, and the inverse of its first columns.
pub struct Setting {
    searched: Solid,
    pub distances: Vec<Vec<f64>>,
    inverse: Vec<Vec<f64>>,
}

/// The setting of a search. There is none where the search is refused before it makes a candidate.
pub fn setting(s: &Solid) -> Option<Setting> {
    if s.dimension + 1 != s.rank() || double_corner(s) {
        return None;
    }
    let searched = exchanged(s, first_facet(s)?);
    let inverse = first_inverse(&searched)?;
    Some(Setting { distances: distances(&searched), searched, inverse })
}

impl Setting {
    /// The candidates that are tested: the matrices of the flags whose elements have the first flag's types, whether or not they become members.
    /// They stand one after another, each row by row.
    pub fn candidates(&self) -> Vec<f64> {
        let (s, types, all) = (&self.searched, types(&self.searched, &self.distances), flags(&self.searched));
        let same_types = |flag: &&Vec<usize>| (1..s.rank()).all(|r| types[r][flag[r]] == types[r][all[0][r]]);
        all.iter().filter(same_types).flat_map(|flag| self.candidate(&columns(s, flag))).collect()
    }

    /// The candidate of a flag with these columns: "columns times the inverse of the first flag's".
    fn candidate(&self, columns: &[Vec<f64>]) -> Vec<f64> {
        let d = columns.len();
        let row = |i: usize| columns.iter().map(|c| c[i]).collect::<Vec<f64>>();
        let column = |j: usize| self.inverse.iter().map(|r| r[j]).collect::<Vec<f64>>();
        (0..d).flat_map(|i| (0..d).map(move |j| dot(&row(i), &column(j)))).collect()
    }
}

/// The inverse of the matrix with these columns, by section 1's Gauss-Jordan. There is none where a pivot is zero.
fn inverse(columns: &[Vec<f64>]) -> Option<Vec<Vec<f64>>> {
    let d = columns.len();
    let unit = |i: usize| (0..d).map(move |j| if i == j { 1.0 } else { 0.0 });
    let mut rows: Vec<Vec<f64>> = (0..d).map(|i| columns.iter().map(|c| c[i]).chain(unit(i)).collect()).collect();
    for c in 0..d {
        let best = (c + 1..d).fold(c, |best, r| if rows[r][c].abs() > rows[best][c].abs() { r } else { best });
        rows.swap(c, best);
        let pivot = rows[c][c];
        if pivot == 0.0 {
            return None;
        }
        rows[c].iter_mut().for_each(|x| *x /= pivot);
        for r in (0..d).filter(|r| *r != c) {
            let factor = rows[r][c];
            for k in 0..2 * d {
                rows[r][k] -= factor * rows[c][k];
            }
        }
    }
    Some(rows.into_iter().map(|row| row[d..].to_vec()).collect())
}

// ---- copying

/// The first refusal of a copying in the order "2, 1, 3, 12", or 0.
pub fn refused_early(d: u64, points: &[f64], turns: &[f64]) -> u64 {
    if !(1..=4).contains(&d) {
        return 2;
    }
    let d = d as usize;
    if points.len() % d != 0 || turns.len() % (d * d) != 0 {
        return 1;
    }
    if !points.iter().chain(turns).all(|x| x.abs() <= LIMIT) {
        return 3;
    }
    if points.is_empty() || turns.is_empty() {
        return 12;
    }
    0
}

/// What a copying answers and writes: the refusal's number, the count, the copies' and the table's first cells.
pub struct Copied {
    pub refusal: u64,
    pub count: usize,
    pub copies: Vec<f64>,
    pub table: Vec<u16>,
}

/// What the call answers, given all copies, their table (there is none where an image is not among the copies) and the lengths of the outputs.
pub fn copied(d: usize, turns: usize, copies: &[f64], table: Option<&[usize]>, floats: usize, cells: usize) -> Copied {
    let n = copies.len() / d;
    let room = MOST.min(floats / d);
    let all = turns * n;
    let kept = copies[..n.min(room) * d].to_vec();
    if n > room || all > cells {
        return Copied { refusal: 13, count: n.min(room), copies: kept, table: vec![] };
    }
    match table {
        None => Copied { refusal: 14, count: n, copies: kept, table: vec![65535; all] },
        Some(t) => Copied { refusal: 0, count: n, copies: kept, table: t.iter().map(|k| *k as u16).collect() },
    }
}

/// The images of the points under each matrix in turn.
pub fn images(d: usize, points: &[f64], turns: &[f64]) -> Vec<f64> {
    let mut all = Vec::new();
    for m in turns.chunks(d * d) {
        for p in points.chunks(d) {
            all.extend(m.chunks(d).map(|row| dot(row, p)));
        }
    }
    all
}
