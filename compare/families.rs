//! Solids by name, for the times: regular and uniform ones, antiprisms, a star, one with members that are no symmetries, and one without any
//! symmetry.

use crate::copyings::{icosians, signed_orders};
use crate::random::Random;
use crate::solids::Solid;

type Points = Vec<Vec<f64>>;

/// The convex solid with these facets, which are given as lists of vertices. The facets of a face are its greatest intersections with other faces of
/// its rank.
fn convex(points: Points, facets: Vec<Vec<usize>>) -> Solid {
    let mut lists = Vec::new();
    let mut faces = facets;
    for _ in 2..points[0].len() {
        let mut below: Vec<Vec<usize>> = Vec::new();
        let mut subs = Vec::new();
        for (i, f) in faces.iter().enumerate() {
            let meets: Vec<Vec<usize>> = faces
                .iter()
                .enumerate()
                .filter(|(j, _)| *j != i)
                .map(|(_, g)| f.iter().copied().filter(|v| g.contains(v)).collect::<Vec<usize>>())
                .filter(|m| m.len() > 1)
                .collect();
            let greatest = |m: &Vec<usize>| !meets.iter().any(|n| n.len() > m.len() && m.iter().all(|v| n.contains(v)));
            let mut of_face: Vec<usize> = Vec::new();
            for m in meets.iter().filter(|m| greatest(m)) {
                let k = below.iter().position(|b| b == m).unwrap_or_else(|| {
                    below.push(m.clone());
                    below.len() - 1
                });
                if !of_face.contains(&k) {
                    of_face.push(k);
                }
            }
            subs.push(of_face);
        }
        lists.push(subs);
        faces = below;
    }
    lists.push(faces);
    lists.reverse();
    Solid::new(points, lists)
}

fn dot(a: &[f64], b: &[f64]) -> f64 {
    a.iter().zip(b).map(|(x, y)| x * y).sum()
}

/// The points that are furthest along the normal.
fn furthest(points: &Points, normal: &[f64]) -> Vec<usize> {
    let most = points.iter().map(|p| dot(p, normal)).fold(f64::NEG_INFINITY, f64::max);
    (0..points.len()).filter(|i| dot(&points[*i], normal) > most - 1e-6).collect()
}

/// The convex hull of points in three dimensions that are all corners: every plane through three of them that has no point beyond it gives a facet.
fn hull(points: Points) -> Solid {
    let mut facets: Vec<Vec<usize>> = Vec::new();
    for (i, a) in points.iter().enumerate() {
        for (j, b) in points.iter().enumerate().skip(i + 1) {
            for c in &points[j + 1..] {
                let (u, v): (Vec<f64>, Vec<f64>) = (0..3).map(|k| (b[k] - a[k], c[k] - a[k])).unzip();
                let mut normal: Vec<f64> = (0..3).map(|k| u[(k + 1) % 3] * v[(k + 2) % 3] - u[(k + 2) % 3] * v[(k + 1) % 3]).collect();
                if dot(&normal, a) < 0.0 {
                    normal.iter_mut().for_each(|x| *x = -*x);
                }
                let height = dot(&normal, a);
                if points.iter().any(|p| dot(&normal, p) > height + 1e-9) {
                    continue;
                }
                let facet: Vec<usize> = (0..points.len()).filter(|k| dot(&normal, &points[*k]) > height - 1e-9).collect();
                if !facets.contains(&facet) {
                    facets.push(facet);
                }
            }
        }
    }
    convex(points, facets)
}

/// Every image of the seeds under the matrices, each once.
fn orbit(seeds: &[[f64; 3]], turns: &[Vec<Vec<f64>>]) -> Points {
    let mut all: Points = Vec::new();
    for seed in seeds {
        for m in turns {
            let p: Vec<f64> = m.iter().map(|row| dot(row, seed)).collect();
            if !all.iter().any(|q| q.iter().zip(&p).all(|(x, y)| (x - y).abs() < 1e-9)) {
                all.push(p);
            }
        }
    }
    all
}

fn determinant(m: &[Vec<f64>]) -> f64 {
    let minor = |i: usize, j: usize| m[1][i] * m[2][j] - m[1][j] * m[2][i];
    m[0][0] * minor(1, 2) - m[0][1] * minor(0, 2) + m[0][2] * minor(0, 1)
}

/// The turns of the icosahedron: each unit icosian q gives the map from v to q v q*.
fn icosahedral() -> Vec<Vec<Vec<f64>>> {
    icosians()
        .iter()
        .map(|left| {
            let [a, b, c, d] = [left[0][0], left[1][0], left[2][0], left[3][0]];
            vec![
                vec![a * a + b * b - c * c - d * d, 2.0 * (b * c - a * d), 2.0 * (b * d + a * c)],
                vec![2.0 * (b * c + a * d), a * a - b * b + c * c - d * d, 2.0 * (c * d - a * b)],
                vec![2.0 * (b * d - a * c), 2.0 * (c * d + a * b), a * a - b * b - c * c + d * d],
            ]
        })
        .collect()
}

/// The Platonic and the Archimedean solids.
pub fn uniform() -> Vec<(&'static str, Solid)> {
    let all = signed_orders(3);
    let of_cube: Vec<_> = all.iter().filter(|m| determinant(m) > 0.0).cloned().collect();
    let product = |m: &Vec<Vec<f64>>| m.iter().flatten().filter(|x| **x != 0.0).product::<f64>();
    let of_tetrahedron: Vec<_> = all.iter().filter(|m| product(m) > 0.0).cloned().collect();
    let turns = icosahedral();
    let both: Vec<_> = turns.iter().flat_map(|m| vec![m.clone(), m.iter().map(|r| r.iter().map(|x| -x).collect()).collect()]).collect();
    // The golden ratio, the root of 2 and, for the snub dodecahedron, the root of x^3 + 2 x^2 = g^2.
    let (g, s, x) = ((1.0 + 5f64.sqrt()) / 2.0, 2f64.sqrt(), 0.943151259243881);
    let solid = |seed: [f64; 3], turns: &[Vec<Vec<f64>>]| hull(orbit(&[seed], turns));
    vec![
        ("tetrahedron", solid([1.0, 1.0, 1.0], &of_tetrahedron)),
        ("cube", solid([1.0, 1.0, 1.0], &all)),
        ("octahedron", solid([1.0, 0.0, 0.0], &all)),
        ("dodecahedron", solid([1.0, 1.0, 1.0], &both)),
        ("icosahedron", solid([0.0, g, 1.0], &both)),
        ("truncated tetrahedron", solid([3.0, 1.0, 1.0], &of_tetrahedron)),
        ("cuboctahedron", solid([1.0, 1.0, 0.0], &all)),
        ("truncated cube", solid([s - 1.0, 1.0, 1.0], &all)),
        ("truncated octahedron", solid([0.0, 1.0, 2.0], &all)),
        ("rhombicuboctahedron", solid([1.0, 1.0, 1.0 + s], &all)),
        ("truncated cuboctahedron", solid([1.0, 1.0 + s, 1.0 + 2.0 * s], &all)),
        ("snub cube", solid([1.0, 0.5436890126920764, 1.839286755214161], &of_cube)),
        ("icosidodecahedron", solid([0.0, 0.0, g], &both)),
        ("truncated dodecahedron", solid([0.0, 1.0 / g, 2.0 + g], &both)),
        ("truncated icosahedron", solid([0.0, 3.0 * g, 1.0], &both)),
        ("rhombicosidodecahedron", solid([1.0, 1.0, g * g * g], &both)),
        ("truncated icosidodecahedron", solid([1.0 / g, 1.0 / g, 3.0 + g], &both)),
        ("snub dodecahedron", solid([g * g - g * g * x, x, 2.0 * g * x * x + g * x - g * g * g], &turns)),
    ]
}

/// A tetrahedron with three lengths of edges, of which opposite ones are alike. Some of its members are no symmetries.
pub fn disphenoid() -> Solid {
    hull([[1.0, 1.0, 1.0], [1.0, -1.0, -1.0], [-1.0, 1.0, -1.0], [-1.0, -1.0, 1.0]].iter().map(|p| vec![p[0], 2.0 * p[1], 3.0 * p[2]]).collect())
}

pub fn antiprism(n: usize) -> Solid {
    let corner = |k: usize| {
        let angle = std::f64::consts::PI * k as f64 / n as f64;
        vec![angle.cos(), angle.sin(), if k % 2 == 0 { 0.5 } else { -0.5 }]
    };
    hull((0..2 * n).map(corner).collect())
}

/// A star, whose faces are the pentagons that the neighbours of each corner of an icosahedron make.
pub fn great_dodecahedron() -> Solid {
    let (_, icosahedron) = uniform().into_iter().find(|(name, _)| *name == "icosahedron").unwrap();
    let edges = icosahedron.lists[0].clone();
    let next = |a: usize, b: usize| edges.iter().any(|e| e.contains(&a) && e.contains(&b));
    let pentagon = |v: usize| (0..edges.len()).filter(|i| !edges[*i].contains(&v) && edges[*i].iter().all(|u| next(v, *u))).collect();
    let faces = (0..icosahedron.points.len()).map(pentagon).collect();
    Solid::new(icosahedron.points.clone(), vec![edges.clone(), faces])
}

pub fn cell_5() -> Solid {
    let height = 1.0 / 5f64.sqrt();
    let mut points: Points = [[1.0, 1.0, 1.0], [1.0, -1.0, -1.0], [-1.0, 1.0, -1.0], [-1.0, -1.0, 1.0]].iter().map(|p| [&p[..], &[-height]].concat()).collect();
    points.push(vec![0.0, 0.0, 0.0, 4.0 * height]);
    convex(points, (0..5).map(|left_out| (0..5).filter(|v| *v != left_out).collect()).collect())
}

pub fn cell_16() -> Solid {
    let points: Points = (0..8).map(|v| (0..4).map(|i| if v / 2 == i { 1.0 - 2.0 * (v % 2) as f64 } else { 0.0 }).collect()).collect();
    convex(points, (0..16).map(|s| (0..4).map(|i| 2 * i + (s >> i & 1)).collect()).collect())
}

pub fn cell_24() -> Solid {
    let orders = signed_orders(4);
    let orbit = |seed: [f64; 4]| {
        let mut all: Points = Vec::new();
        for m in &orders {
            let p: Vec<f64> = m.iter().map(|row| dot(row, &seed)).collect();
            if !all.contains(&p) {
                all.push(p);
            }
        }
        all
    };
    let points = orbit([1.0, 1.0, 0.0, 0.0]);
    let normals = [orbit([1.0, 0.0, 0.0, 0.0]), orbit([0.5; 4])].concat();
    let facets = normals.iter().map(|n| furthest(&points, n)).collect();
    convex(points, facets)
}

/// The unit icosians, which are the 120 vertices of the 600-cell.
fn icosian_points() -> Points {
    icosians().iter().map(|left| left.iter().map(|row| row[0]).collect()).collect()
}

/// The 600 cells of the 600-cell, each of which consists of four icosians that are next to each other.
fn tetrahedra(points: &Points) -> Vec<Vec<usize>> {
    let next = |i: usize, j: usize| (dot(&points[i], &points[j]) - (1.0 + 5f64.sqrt()) / 4.0).abs() < 1e-9;
    let mut sets: Vec<Vec<usize>> = (0..points.len()).map(|i| vec![i]).collect();
    for _ in 1..4 {
        sets = sets
            .iter()
            .flat_map(|s| (s[s.len() - 1] + 1..points.len()).filter(|j| s.iter().all(|i| next(*i, *j))).map(|j| [&s[..], &[j]].concat()).collect::<Vec<_>>())
            .collect();
    }
    sets
}

pub fn cell_600() -> Solid {
    let points = icosian_points();
    let facets = tetrahedra(&points);
    convex(points, facets)
}

/// The 120-cell, whose vertices are the middles of the 600-cell's cells.
pub fn cell_120() -> Solid {
    let normals = icosian_points();
    let middle = |cell: &Vec<usize>| (0..4).map(|k| cell.iter().map(|i| normals[*i][k]).sum()).collect::<Vec<f64>>();
    let points: Points = tetrahedra(&normals).iter().map(middle).collect();
    let facets = normals.iter().map(|n| furthest(&points, n)).collect();
    convex(points, facets)
}

/// The hull of n random points of a sphere.
pub fn asymmetric(n: usize, random: &mut Random) -> Solid {
    let mut points: Points = Vec::new();
    while points.len() < n {
        let p: Vec<f64> = (0..3).map(|_| random.unit()).collect();
        let length = dot(&p, &p).sqrt();
        if length > 0.1 && length < 1.0 {
            points.push(p.iter().map(|x| x / length).collect());
        }
    }
    hull(points)
}
