//! What README.md says of solids that are not centred, of rounded coordinates, of types and dies, and of what to try at a refusal.

use jidwaleb::{rotations, search, types, Refusal, Refused};

/// What a sheet says; docs/SHEET.md has the fields.
#[derive(Clone)]
struct Solid {
    rank: usize,
    points: Vec<Vec<f64>>,
    lists: Vec<Vec<Vec<usize>>>,
}

impl Solid {
    fn sample(name: &str) -> Solid {
        let bytes = std::fs::read(format!("{}/../samples/{}.sheet", env!("CARGO_MANIFEST_DIR"), name)).expect("a sample");
        let mut at = 0;
        let mut field = |width: usize| {
            let bits = (at..at + width).map(|i| u64::from(bytes[i / 8] >> (7 - i % 8) & 1));
            at += width;
            bits.fold(0, |number, bit| number << 1 | bit)
        };
        let (rank, dimension) = (field(3) as usize, field(3));
        let counts: Vec<u64> = (1..rank).map(|_| field(12)).collect();
        let points = (0..counts[0]).map(|_| (0..dimension).map(|_| f64::from_bits(field(64))).collect()).collect();
        let mut list = || {
            let length = field(12);
            (0..length).map(|_| field(11) as usize).collect()
        };
        let lists = counts[1..].iter().map(|count| (0..*count).map(|_| list()).collect()).collect();
        Solid { rank, points, lists }
    }

    fn sheet(&self) -> Vec<u8> {
        let mut bits = Vec::new();
        let mut put = |number: u64, width: u32| bits.extend((0..width).rev().map(|k| (number >> k & 1) as u8));
        put(self.rank as u64, 3);
        put(self.points[0].len() as u64, 3);
        put(self.points.len() as u64, 12);
        self.lists.iter().for_each(|elements| put(elements.len() as u64, 12));
        self.points.iter().flatten().for_each(|x| put(x.to_bits(), 64));
        for list in self.lists.iter().flatten() {
            put(list.len() as u64, 12);
            list.iter().for_each(|sub| put(*sub as u64, 11));
        }
        bits.chunks(8).map(|byte| byte.iter().enumerate().map(|(k, bit)| bit << (7 - k)).sum()).collect()
    }

    fn moved(mut self, by: &[f64]) -> Solid {
        self.points.iter_mut().for_each(|p| p.iter_mut().zip(by).for_each(|(x, d)| *x += d));
        self
    }

    fn scaled(mut self, by: f64) -> Solid {
        self.points.iter_mut().flatten().for_each(|x| *x *= by);
        self
    }

    /// As a file with so many digits behind the point would have it.
    fn rounded(mut self, digits: usize) -> Solid {
        self.points.iter_mut().flatten().for_each(|x| *x = format!("{:.*}", digits, x).parse().unwrap());
        self
    }

    /// As a file with so many significant digits would have it.
    fn shortened(mut self, digits: usize) -> Solid {
        self.points.iter_mut().flatten().for_each(|x| *x = format!("{:.*e}", digits - 1, x).parse().unwrap());
        self
    }

    /// A facet comes first, and the others as they were.
    fn first(mut self, facet: usize) -> Solid {
        let facets = self.lists.last_mut().unwrap();
        let chosen = facets.remove(facet);
        facets.insert(0, chosen);
        self
    }

    /// How many types there are, and how many members or which refusal.
    fn answers(&self) -> (usize, Result<usize, Refusal>) {
        let sheet = self.sheet();
        (types(&sheet).unwrap().types.len(), search(&sheet).map(|members| members.len()).map_err(|refused| refused.why))
    }

    fn length(&self, edge: usize) -> f64 {
        let (a, b) = (&self.points[self.lists[0][edge][0]], &self.points[self.lists[0][edge][1]]);
        a.iter().zip(b).map(|(x, y)| (x - y) * (x - y)).sum::<f64>().sqrt()
    }
}

#[test]
fn a_sample_is_packed_as_it_was_read() {
    let bytes = std::fs::read(concat!(env!("CARGO_MANIFEST_DIR"), "/../samples/tesseract.sheet")).unwrap();
    assert_eq!(Solid::sample("tesseract").sheet(), bytes);
}

#[test]
fn a_solid_that_is_not_centred_loses_symmetries() {
    let cube = Solid::sample("cube");
    assert_eq!(cube.answers(), (3, Ok(48)));
    assert_eq!(cube.clone().moved(&[1e-8, 0.0, 0.0]).answers(), (3, Ok(48)));
    assert_eq!(cube.clone().moved(&[1e-7, 0.0, 0.0]).answers(), (8, Ok(8)));
    assert_eq!(cube.clone().moved(&[0.1, 0.0, 0.0]).answers(), (8, Ok(8)));
    assert_eq!(cube.clone().moved(&[1.0, 1.0, 1.0]).answers(), (9, Ok(6)));
    assert_eq!(cube.moved(&[0.1, 0.2, 0.3]).answers(), (26, Ok(1)));
}

#[test]
fn rounded_coordinates() {
    let dodecahedron = Solid::sample("dodeca");
    assert_eq!(dodecahedron.answers(), (3, Ok(120)));
    assert_eq!(dodecahedron.clone().shortened(6).answers(), (5, Err(Refusal::Centred)));
    assert_eq!(dodecahedron.clone().shortened(7).answers(), (3, Ok(120)));
    // the circumradius is √3, and the edge √5 − 1
    assert_eq!(dodecahedron.clone().scaled(1.0 / 3f64.sqrt()).rounded(6).answers(), (3, Err(Refusal::Centred)));
    let large = dodecahedron.scaled(60.0 / (5f64.sqrt() - 1.0));
    assert!((large.length(0) - 60.0).abs() < 1e-10);
    assert_eq!(large.clone().rounded(3).answers(), (5, Err(Refusal::Centred)));
    assert_eq!(large.clone().rounded(5).answers(), (13, Ok(8)));
    assert_eq!(large.clone().rounded(6).answers(), (13, Ok(8)));
    assert_eq!(large.clone().rounded(7).answers(), (3, Ok(72)));
    assert_eq!(large.clone().rounded(8).answers(), (3, Ok(120)));
    assert_eq!(large.answers(), (3, Ok(120)));
}

#[test]
fn the_tolerance_is_absolute() {
    let dodecahedron = Solid::sample("dodeca");
    assert_eq!(dodecahedron.clone().scaled(1e-7).answers(), (3, Err(Refusal::DoubleCorner)));
    assert_eq!(dodecahedron.clone().scaled(1e-6).answers(), (3, Ok(120)));
    assert_eq!(dodecahedron.scaled(1e5).answers(), (3, Ok(120)));
}

/// A double pyramid over a hexagon whose corners lie in turn at the distances 2 and √2 from the origin. The lines of all its edges touch the circle of
/// radius 1: the long edges themselves, and the short ones continued.
fn pinwheel() -> Solid {
    let corner = |radius: f64, degrees: f64| vec![radius * degrees.to_radians().cos(), radius * degrees.to_radians().sin(), 0.0];
    let mut points = Vec::new();
    for turn in [0.0, 120.0, 240.0] {
        points.extend([corner(2.0, turn), corner(2f64.sqrt(), turn + 105.0)]);
    }
    points.extend([vec![0.0, 0.0, 1.0], vec![0.0, 0.0, -1.0]]);
    let mut edges: Vec<Vec<usize>> = (0..6).map(|k| vec![k.min((k + 1) % 6), k.max((k + 1) % 6)]).collect();
    edges.extend((0..12).map(|k| vec![k % 6, 6 + k / 6]));
    let panels = (0..12).map(|k| {
        let (a, b) = (k % 6, (k + 1) % 6);
        let above = 6 + k / 6 * 6;
        vec![a, above + a.min(b), above + a.max(b)]
    });
    Solid { rank: 4, points, lists: vec![edges, panels.collect()] }
}

#[test]
fn panels_of_one_type_may_have_two_shapes() {
    let solid = pinwheel();
    let sheet = solid.sheet();
    let panels: Vec<_> = types(&sheet).unwrap().types.into_iter().filter(|t| t.rank == 3).collect();
    assert_eq!((panels.len(), panels[0].count), (1, 12));
    let edges: Vec<_> = types(&sheet).unwrap().types.into_iter().filter(|t| t.rank == 2).map(|t| t.count).collect();
    assert_eq!(edges, [6, 6, 6]);
    let lengths: Vec<String> = (0..6).map(|edge| format!("{:.2}", solid.length(edge))).collect();
    assert_eq!(lengths, ["2.73", "0.73", "2.73", "0.73", "2.73", "0.73"]);
    // the confirmed members carry a panel only to panels of its own shape
    let members = search(&sheet).unwrap();
    assert_eq!((members.len(), rotations(&sheet).unwrap().len()), (6, 3));
    let corners = |panel: usize| -> Vec<usize> {
        let mut all: Vec<usize> = solid.lists[1][panel].iter().flat_map(|edge| solid.lists[0][*edge].clone()).collect();
        all.sort_unstable();
        all.dedup();
        all
    };
    for panel in 0..12 {
        let mut reached: Vec<usize> = Vec::new();
        for (_, row, confirmed) in &members {
            assert!(confirmed);
            let mut image: Vec<usize> = corners(panel).iter().map(|c| usize::from(row[*c])).collect();
            image.sort_unstable();
            reached.extend((0..12).filter(|other| corners(*other) == image));
        }
        reached.sort_unstable();
        reached.dedup();
        assert_eq!(reached, (0..12).filter(|other| other % 2 == panel % 2).collect::<Vec<_>>());
    }
}

/// A quadrangle whose first two corners are nearly in line with the origin.
fn sliver() -> Solid {
    let points = vec![vec![1000.0, 1.0], vec![900000.0, 900.001], vec![-1000000.0, 7.0], vec![3.0, -1000000.0]];
    Solid { rank: 3, points, lists: vec![vec![vec![0, 1], vec![1, 2], vec![2, 3], vec![0, 3]]] }
}

#[test]
fn where_no_member_is_found_another_facet_helps() {
    assert_eq!(search(&sliver().sheet()), Err(Refused { why: Refusal::Blank, kept: 0 }));
    for facet in 1..4 {
        assert_eq!(search(&sliver().first(facet).sheet()).unwrap().len(), 1);
    }
    assert_eq!(search(&sliver().scaled(0.01).sheet()).unwrap().len(), 1);
}

#[test]
fn a_corner_in_a_straight_edge() {
    // a cube whose edge 0 has a corner in its middle; edge 0 is in panels 0 and 1
    let mut cube = Solid::sample("cube");
    let (a, b, middle) = (cube.lists[0][0][0], cube.lists[0][0][1], cube.points.len());
    cube.points.push(cube.points[a].iter().zip(&cube.points[b]).map(|(x, y)| (x + y) / 2.0).collect());
    cube.lists[0][0] = vec![a, middle];
    cube.lists[0].push(vec![b, middle]);
    let half = cube.lists[0].len() - 1;
    cube.lists[1].iter_mut().filter(|panel| panel.contains(&0)).for_each(|panel| panel.push(half));
    for panel in 0..6 {
        let answer = if panel < 2 { Err(Refusal::Flat) } else { Ok(4) };
        assert_eq!(cube.clone().first(panel).answers().1, answer);
    }
}

#[test]
fn solids_that_are_not_closed() {
    let refused = |solid: &Solid| types(&solid.sheet()).unwrap_err().why;
    let mut hole = Solid::sample("cube");
    hole.lists[1].pop();
    assert_eq!(refused(&hole), Refusal::Mitre);
    let mut unused = Solid::sample("cube");
    unused.points.push(vec![9.0, 9.0, 9.0]);
    assert_eq!(refused(&unused), Refusal::Loose);
    let mut flat = Solid::sample("trial-square");
    flat.points.iter_mut().for_each(|p| p.push(0.0));
    assert_eq!(flat.answers(), (2, Err(Refusal::NotFull)));
}
