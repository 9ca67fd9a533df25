//! "Clean" of document 01, section 6: the definitions of crates/spec/specs/Clean.antt under the same names. On input that is not clean the Rust
//! may differ by right (docs/DIFFERENCES.md), and the comparison leaves it out.

use crate::model::{self, images, EPS};
use crate::solids::{dyad, Solid};

// ---- coordinates and images

/// "differ by at most EPS": the rounded difference, EPS included.
fn within_eps(x: f64, y: f64) -> bool {
    (x - y).abs() <= EPS
}

/// ".. is transitive among" the values, which are finite. Rounding keeps the order of differences, so that values in rising order fall into runs,
/// each value within EPS of the one before it, and the test is transitive exactly when the first and the last of each run differ by at most EPS.
fn transitive(mut values: Vec<f64>) -> bool {
    values.sort_unstable_by(f64::total_cmp);
    let mut first = 0;
    (1..values.len()).all(|i| {
        if !within_eps(values[i], values[i - 1]) {
            first = i;
        }
        within_eps(values[i], values[first])
    })
}

/// ".. among coordinates and images on each axis, images are finite".
fn clean_points(d: usize, points: &[f64], images: &[f64]) -> bool {
    let on_axis = |k: usize| points.iter().skip(k).step_by(d).chain(images.iter().skip(k).step_by(d)).copied().collect();
    images.iter().all(|x| x.is_finite()) && (0..d).all(|k| transitive(on_axis(k)))
}

// ---- distances

/// "strictly nearer than EPS".
fn nearer(x: f64, y: f64) -> bool {
    (x - y).abs() < EPS
}

/// What is listed when each distance has been taken or has joined.
fn listed_by(distances: &[f64]) -> Vec<f64> {
    let mut listed: Vec<f64> = Vec::new();
    for d in distances {
        if !listed.iter().any(|l| nearer(*d, *l)) {
            listed.push(*d);
        }
    }
    listed
}

/// "no distance is ever nearer than EPS to two listed values": strictly nearer, and to two of the whole list.
fn clean_distances(distances: &[f64]) -> bool {
    let listed = listed_by(distances);
    distances.iter().all(|d| listed.iter().filter(|l| nearer(*d, **l)).count() < 2)
}

// ---- solids and copyings

/// Whether a solid is clean. The distances are asked as it was read and, in a search, once more with its facets exchanged; the images are those
/// of every vertex under every candidate. A search that is refused before it makes a candidate has neither images nor a second list.
pub fn clean(s: &Solid) -> bool {
    let points = s.points.concat();
    clean_distances(&model::distances(s).concat())
        && match model::setting(s) {
            None => clean_points(s.dimension, &points, &[]),
            Some(w) => clean_distances(&w.distances.concat()) && clean_points(s.dimension, &points, &images(s.dimension, &points, &w.candidates())),
        }
}

/// Whether a copying is clean: "In copying, the first two are meant of points, copies and images". The images are those of the points that are
/// multiplied, which are those "not found among the copies", and those of the copies.
pub fn clean_copying(d: usize, points: &[f64], turns: &[f64]) -> bool {
    let found = |copies: &[f64], p: &[f64]| copies.chunks(d).any(|c| c.iter().zip(p).all(|(x, y)| within_eps(*x, *y)));
    let (mut copies, mut multiplied) = (Vec::new(), Vec::new());
    for p in points.chunks(d).collect::<Vec<_>>() {
        if !found(&copies, p) {
            multiplied.extend_from_slice(p);
            for q in images(d, p, turns).chunks(d) {
                if !found(&copies, q) {
                    copies.extend_from_slice(q);
                }
            }
        }
    }
    multiplied.extend_from_slice(&copies);
    clean_points(d, &[points, &copies].concat(), &images(d, &multiplied, turns))
}

// ---- the test of this file

/// The polygon through these points in turn.
fn ring<const D: usize>(points: &[[f64; D]]) -> Solid {
    let n = points.len();
    Solid::new(points.iter().map(|p| p.to_vec()).collect(), vec![(0..n).map(|k| vec![k, (k + 1) % n]).collect()])
}

/// Tests this file on the examples that are evaluated in crates/spec/specs/CallExamples.antt and crates/trials/specs/Differences.antt, and panics
/// where one fails.
pub fn check() {
    let steps = [0.0, 0.5e-7, 0.6e-7, 1e-7, 1.2e-7, 2e-7, -0.5e-7, 1.0, 1.00000006, 1.0000001, 1.0000002];
    for k in 0..steps.len().pow(4) {
        let xs: Vec<f64> = (0..4).map(|i| steps[k / steps.len().pow(i) % steps.len()]).collect();
        let broken = |x: &f64| xs.iter().any(|y| within_eps(*x, *y) && xs.iter().any(|z| within_eps(*y, *z) && !within_eps(*x, *z)));
        assert_eq!(transitive(xs.clone()), !xs.iter().any(broken), "transitive {:?}", xs);
    }
    let (square, triangle) = ([[1.0, 1.0], [-1.0, 1.0], [-1.0, -1.0], [1.0, -1.0]], [[-1.0, 0.0], [1.0, 0.0], [0.0, 1.0]]);
    // the last four are refused 9 to 11: document 01 refuses what the Rust takes, and that alone is the difference
    let dyads = [[-1.0, 1.0], [-1.0, 1.00000009], [5e-8, -1.2e-7], [0.0, 1e-7], [-1e-7, 1e-7], [1e-310, 1.0], [1.0, 1.0]];
    for s in [ring(&square), ring(&triangle)].into_iter().chain(dyads.map(|[a, b]| dyad(a, b))) {
        assert!(clean(&s), "{:?} is clean", s.points);
    }
    let not_clean = [
        // distances near two listed values; the second and the last are so only when the list is whole
        ring(&[[0.0], [1.2e-7], [0.6e-7]]),
        ring(&[[0.0], [0.6e-7], [1.2e-7]]),
        ring(&[[0.0], [1e-7], [0.5e-7]]),
        ring(&[[1.0, 0.0], [-0.50000003, 0.86602546], [-0.50000006, -0.86602551]]),
        // images near two vertices, the last under a candidate that is no member
        dyad(1.1e-7, -0.5e-7),
        ring(&[[-9e-8, 1.0], [9e-8, 0.0], [1.0, 0.0]]),
        ring(&[[0.0, 1.0], [1.0, 0.0], [8e-8, -1.0], [-1.0, 0.0]]),
        ring(&[[-1.0, -1.0], [1.0, -1.0], [4.5e-8, 1.0], [-6e-8, 1.0]]),
        // a distance near two values of the exchanged solid's list
        Solid::new(
            [[1.0, 9e-8], [-1.0, 9e-8], [2e-8, 1.0], [2e-8, -1.0], [2.00000013, 1.99999987], [-1.99999987, -2.00000013]].map(Vec::from).to_vec(),
            vec![[[0, 1], [2, 3], [4, 5], [1, 2], [3, 4], [0, 5]].map(Vec::from).to_vec()],
        ),
    ];
    for s in not_clean {
        assert!(!clean(&s), "{:?} is not clean", s.points);
    }
    let one = [1.0, 0.0, 0.0, 1.0];
    let quarters = [one, [0.0, -1.0, 1.0, 0.0], [-1.0, 0.0, 0.0, -1.0], [0.0, 1.0, -1.0, 0.0]].concat();
    assert!(clean_copying(2, &[1.0, 0.0], &quarters));
    assert!(clean_copying(1, &[0.0, 0.9e-7], &[1.0, 2.0]));
    assert!(!clean_copying(1, &[1e-7], &[1.0, -1.0, 0.0]));
    assert!(!clean_copying(2, &[0.0, 5.0, 8e-8, 0.0], &[one, [1.0, -1e-8, 0.0, 1.0]].concat()));
    assert!(!clean_copying(2, &[0.0, 5.0, 8e-8, 0.0, -5e-8, 5.0], &one));
}
