
// ---------------------------------------------------------------------------
// Public functions over the oracle, for the comparison. compare/build.sh appends this file to oracle/src/main.rs and builds both as a library, so
// that the oracle's own text stays as it is.

/// Points and matrices, ready to be copied.
pub struct Copying {
    points: Vertices,
    group: Group<vec::IntoIter<Matrix<f64>>>,
}

impl Copying {
    pub fn new(dim: usize, points: &[f64], turns: &[f64]) -> Self {
        let matrices: Vec<_> = turns.chunks(dim * dim).map(|m| Matrix::from_row_slice(dim, m)).collect();
        Copying {
            points: Vertices(points.chunks(dim).map(|p| p.to_vec().into()).collect()),
            group: unsafe { Group::new(dim, matrices.into_iter()) },
        }
    }

    /// How many copies there are, for timing.
    pub fn count(&self) -> usize {
        self.points.copy_by_symmetry(self.group.clone()).0 .0.len()
    }

    /// The copies, and the table row by row, or `None` where the Rust meets an image that is not among the copies (its `unreachable!`). It is an
    /// error where the Rust panics for any other reason.
    pub fn copied(&self) -> Result<(Vec<f64>, Option<Vec<usize>>), String> {
        let table = match run(|| self.points.copy_by_symmetry(self.group.clone()).1) {
            Ok(rows) => Some(rows.concat()),
            Err(why) if why == "unreachable" => None,
            Err(why) => return Err(why),
        };
        let copies = COPIES.with(|c| c.borrow().iter().flat_map(|p| p.iter().copied().collect::<Vec<f64>>()).collect());
        Ok((copies, table))
    }
}

/// The types: four numbers for each type (rank, type, example, count), and the type of each proper element.
pub struct Types {
    pub table: Vec<usize>,
    pub of: Vec<usize>,
}

/// The members: matrices row by row, rows, and whether each is a rotation.
pub struct Members {
    pub matrices: Vec<f64>,
    pub rows: Vec<usize>,
    pub rotations: Vec<bool>,
}

/// A solid that the Rust holds.
pub struct Solid(Concrete);

impl Solid {
    /// Reads a sheet, and gives `None` where it can't be read. Limits, loose elements and the diamond are not tested.
    pub fn read(sheet: &[u8]) -> Option<Self> {
        read_sheet(sheet).map(Solid)
    }

    pub fn types(&self) -> Result<Types, String> {
        let (types, of_element) = run(|| self.0.element_types_common())?;
        let proper = 1..self.0.rank().max(1);
        let table = proper
            .clone()
            .flat_map(|r| types[r].iter().enumerate().flat_map(move |(t, e)| vec![r, t, e.example, e.count]).collect::<Vec<_>>())
            .collect();
        Ok(Types { table, of: proper.flat_map(|r| of_element[r].iter().copied().collect::<Vec<_>>()).collect() })
    }

    /// The members, or `None` where the Rust says that all facets pass through the origin.
    pub fn members(&mut self, only_rotations: bool) -> Result<Option<Members>, String> {
        let found = run(|| if only_rotations { self.0.get_rotation_group() } else { self.0.get_symmetry_group() })?;
        Ok(found.map(|(group, rows)| {
            let mut members = Members { matrices: Vec::new(), rows: rows.concat(), rotations: Vec::new() };
            for m in group {
                for i in 0..m.nrows() {
                    members.matrices.extend((0..m.ncols()).map(|j| m[(i, j)]));
                }
                members.rotations.push(m.determinant() > 0.);
            }
            members
        }))
    }

    /// How many types there are, for timing.
    pub fn type_count(&self) -> usize {
        self.0.element_types_common().0.iter().map(Vec::len).sum()
    }

    pub fn member_count(&mut self, only_rotations: bool) -> usize {
        let found = if only_rotations { self.0.get_rotation_group() } else { self.0.get_symmetry_group() };
        found.map_or(0, |(_, rows)| rows.len())
    }
}
