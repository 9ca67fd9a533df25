//! Random lists of points and of matrices, most of which are groups.

use crate::random::Random;
use std::f64::consts::PI;

pub struct Given {
    pub dimension: usize,
    pub points: Vec<f64>,
    pub turns: Vec<f64>,
}

type Rows = Vec<Vec<f64>>;

/// The signed orders of d axes. In three dimensions these are the 48, in the table's order.
pub fn signed_orders(d: usize) -> Vec<Rows> {
    let mut orders: Vec<Vec<usize>> = vec![vec![]];
    for _ in 0..d {
        orders = orders.iter().flat_map(|o| (0..d).filter(move |k| !o.contains(k)).map(move |k| [&o[..], &[k]].concat())).collect();
    }
    let mut all = Vec::new();
    for order in &orders {
        for s in 0..1usize << d {
            let sign = |i: usize| if s >> (d - 1 - i) & 1 == 1 { -1.0 } else { 1.0 };
            all.push((0..d).map(|i| (0..d).map(|j| if j == order[i] { sign(i) } else { 0.0 }).collect()).collect());
        }
    }
    all
}

/// The matrices that multiply from the left by each of the 120 unit icosians.
pub fn icosians() -> Vec<Rows> {
    let golden = (1.0 + 5f64.sqrt()) / 2.0;
    let mut units: Vec<[f64; 4]> = Vec::new();
    for k in 0..8 {
        let mut q = [0.0; 4];
        q[k / 2] = 1.0 - 2.0 * (k % 2) as f64;
        units.push(q);
    }
    for s in 0..16 {
        units.push([0, 1, 2, 3].map(|i| 0.5 - (s >> i & 1) as f64));
    }
    for m in signed_orders(4) {
        // Only the even orders of the axes are taken, with a sign for each value except 0.
        let order: Vec<usize> = m.iter().map(|row| row.iter().position(|x| *x != 0.0).unwrap()).collect();
        let swaps = (0..4).flat_map(|i| (0..i).map(move |j| (j, i))).filter(|(j, i)| order[*j] > order[*i]).count();
        let sign = |i: usize| m[i][order[i]];
        let zero = order.iter().position(|k| *k == 3).unwrap();
        if swaps % 2 == 0 && sign(zero) > 0.0 {
            let values = [golden / 2.0, 0.5, 0.5 / golden, 0.0];
            units.push([0, 1, 2, 3].map(|i| sign(i) * values[order[i]]));
        }
    }
    units
        .iter()
        .map(|&[a, b, c, d]| vec![vec![a, -b, -c, -d], vec![b, a, -d, c], vec![c, d, a, -b], vec![d, -c, b, a]])
        .collect()
}

fn turn(k: usize, n: usize) -> [f64; 2] {
    let angle = 2.0 * PI * k as f64 / n as f64;
    [angle.cos(), angle.sin()]
}

/// The n turns of the first two axes, which turn the last two `twice` times as fast, and the mirrored ones as well where they are asked for.
fn cyclic(d: usize, n: usize, twice: usize, mirrored: bool) -> Vec<Rows> {
    let mut all = Vec::new();
    for mirror in if mirrored { vec![1.0, -1.0] } else { vec![1.0] } {
        for k in 0..n {
            let mut m: Rows = (0..d).map(|i| (0..d).map(|j| if i == j { 1.0 } else { 0.0 }).collect()).collect();
            let mut put = |at: usize, [c, s]: [f64; 2]| {
                m[at][at] = c;
                m[at][at + 1] = -s * mirror;
                m[at + 1][at] = s;
                m[at + 1][at + 1] = c * mirror;
            };
            put(0, turn(k, n));
            if d == 4 {
                put(2, turn(k * twice % n, n));
            }
            all.push(m);
        }
    }
    all
}

fn product(a: &Rows, b: &Rows) -> Rows {
    let d = a.len();
    (0..d).map(|i| (0..d).map(|j| (0..d).map(|k| a[i][k] * b[k][j]).sum()).collect()).collect()
}

fn transposed(a: &Rows) -> Rows {
    (0..a.len()).map(|i| (0..a.len()).map(|j| a[j][i]).collect()).collect()
}

pub fn flat(matrices: &[Rows]) -> Vec<f64> {
    matrices.iter().flatten().flatten().copied().collect()
}

fn some_group(random: &mut Random, d: usize) -> Vec<Rows> {
    let mut group = match (d, random.below(4)) {
        (1, _) => signed_orders(1),
        (3 | 4, 0) => signed_orders(d),
        (4, 1) => icosians(),
        (_, 2) => cyclic(d, random.among(1, 12), random.among(1, 5), true),
        _ => cyclic(d, random.among(1, 12), random.among(1, 5), false),
    };
    if random.once_in(2) {
        let q = random.turn(d);
        let back = transposed(&q);
        group = group.iter().map(|m| product(&product(&q, m), &back)).collect();
    }
    group
}

/// Random points and matrices. One list of matrices in six is no group, because one is missing or because all are arbitrary.
pub fn some_copying(random: &mut Random) -> Given {
    let d = random.among(1, 4);
    let mut group = some_group(random, d);
    match random.below(12) {
        0 => {
            group.remove(random.below(group.len()));
        }
        1 => group.iter_mut().flatten().flatten().for_each(|x| *x = random.unit()),
        _ => {}
    }
    let whole = random.once_in(2);
    let mut points: Vec<f64> = Vec::new();
    for _ in 0..if group.len() > 100 { 1 } else { random.among(1, 5) } {
        let p: Vec<f64> = (0..d).map(|_| if whole { random.below(5) as f64 - 2.0 } else { 10.0 * random.unit() }).collect();
        points.extend(p);
    }
    if random.once_in(4) {
        // A copy of the first point is added, a little off.
        let off = [0.0, 1e-12, 5e-8, 3e-7][random.below(4)];
        let near: Vec<f64> = points[..d].iter().map(|x| x + off).collect();
        points.extend(near);
    }
    Given { dimension: d, points, turns: flat(&group) }
}
