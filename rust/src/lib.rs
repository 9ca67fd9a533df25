//! Which corners, edges and panels of a solid are alike, and by which symmetries: a safe wrapper over `libjidwaleb.a`, the proved static library that
//! `sh tools/build.sh archive` writes.
//!
//! A solid comes as a sheet, a packed form that `docs/SHEET.md` describes. The solid is to be centred at the origin, and its coordinates are to have all
//! the digits of an `f64`, because everything is compared with the absolute tolerance 1e-7 (`README.md` says what comes of other input).
//!
//! [`types`], [`search`], [`rotations`] and [`copy`] take slices, allocate what they need and give the answer as a value. [`types_into`],
//! [`search_into`], [`rotations_into`] and [`copy_into`] write into buffers that the caller lends, and allocate nothing. No input makes a
//! call panic: a call that has no answer gives a [`Refused`], which says why.
//!
//! ```
//! // the square with the corners (1, 1), (−1, 1), (−1, −1), (1, −1)
//! let sheet = std::fs::read("../samples/trial-square.sheet")?;
//!
//! // all corners are alike, and so are all edges
//! let types = jidwaleb::types(&sheet)?;
//! assert_eq!(types.of, [0, 0, 0, 0, 0, 0, 0, 0]);
//! assert_eq!(types.types.len(), 2);
//! assert_eq!((types.types[1].rank, types.types[1].count), (2, 4));
//!
//! // it has eight symmetries; each says where every corner goes
//! let members = jidwaleb::search(&sheet)?;
//! assert_eq!(members.len(), 8);
//! for (matrix, row, confirmed) in &members {
//!     println!("{matrix:?} takes the corners to {row:?}{}", if confirmed { "" } else { " (not confirmed)" });
//! }
//! # Ok::<(), Box<dyn std::error::Error>>(())
//! ```
//!
//! # Linking
//!
//! The build script looks for `libjidwaleb.a` in the folder that the environment variable `JIDWALEB_LIB_DIR` names, as an absolute path. Where it is not set the script
//! looks in `target/staticlib` of the tree that this crate is part of. The archive is for x86-64 Linux.
//!
//! # Stack
//!
//! No call takes more than 128 KB of stack. A thread of Rust has 2 MB by default.

#![warn(missing_docs)]

use std::fmt;
use std::iter::Zip;
use std::slice::{ChunksExact, Iter};

#[link(name = "jidwaleb", kind = "static")]
extern "C" {
    fn jidwaleb_types(
        sheet: *const u8,
        sheet_length: usize,
        words: *mut u32,
        words_length: usize,
        floats: *mut f64,
        floats_length: usize,
        of: *mut u16,
        of_length: usize,
        table: *mut u16,
        table_length: usize,
    ) -> u64;
    fn jidwaleb_search(
        sheet: *const u8,
        sheet_length: usize,
        words: *mut u32,
        words_length: usize,
        floats: *mut f64,
        floats_length: usize,
        matrices: *mut f64,
        matrices_length: usize,
        rows: *mut u16,
        rows_length: usize,
        marks: *mut u8,
        marks_length: usize,
    ) -> u64;
    fn jidwaleb_rotations(
        sheet: *const u8,
        sheet_length: usize,
        words: *mut u32,
        words_length: usize,
        floats: *mut f64,
        floats_length: usize,
        matrices: *mut f64,
        matrices_length: usize,
        rows: *mut u16,
        rows_length: usize,
        marks: *mut u8,
        marks_length: usize,
    ) -> u64;
    fn jidwaleb_copy(
        dimension: u64,
        points: *const f64,
        points_length: usize,
        turns: *const f64,
        turns_length: usize,
        copies: *mut f64,
        copies_length: usize,
        table: *mut u16,
        table_length: usize,
    ) -> u64;
}

macro_rules! refusals {
    ($($(#[$doc:meta])* $name:ident = $number:literal, $word:literal;)*) => {
        /// Why a call gave no result. `README.md` says for each refusal what it means to a designer and what to try.
        ///
        /// Later versions of the library will have further refusals, so a `match` needs an arm for the others.
        #[derive(Clone, Copy, Debug, PartialEq, Eq, Hash)]
        #[non_exhaustive]
        pub enum Refusal {
            $($(#[$doc])* $name,)*
            /// A number that this version of the wrapper does not know, from an archive of a later version. It is a refusal like the others.
            Unknown(u32),
        }

        impl Refusal {
            /// The refusal with a number; 0 says that there was none.
            ///
            /// ```
            /// use jidwaleb::Refusal;
            ///
            /// assert_eq!(Refusal::from_number(9), Some(Refusal::DoubleCorner));
            /// assert_eq!(Refusal::from_number(0), None);
            /// ```
            pub fn from_number(number: u32) -> Option<Refusal> {
                match number {
                    0 => None,
                    $($number => Some(Refusal::$name),)*
                    _ => Some(Refusal::Unknown(number)),
                }
            }

            /// The refusal's number, which `kit` prints and the C header names.
            pub fn number(self) -> u32 {
                match self {
                    $(Refusal::$name => $number,)*
                    Refusal::Unknown(number) => number,
                }
            }

            /// A word or two that name the refusal.
            pub fn word(self) -> &'static str {
                match self {
                    $(Refusal::$name => $word,)*
                    Refusal::Unknown(_) => "unknown",
                }
            }
        }
    };
}

refusals! {
    /// A field of the sheet is not whole, bytes follow it, or a filling bit is 1; in copying, a length is not whole points or matrices.
    CutSheet = 1, "cut sheet";
    /// A limit on the rank, the dimension, a count or the list entries of a rank is broken; in copying, the dimension is not 1 to 4.
    Format = 2, "format";
    /// A coordinate or a matrix entry is not finite, or above 1,048,576 in magnitude.
    OffTheBoard = 3, "off the board";
    /// A list is empty, names an element that does not exist, or does not strictly rise.
    BadList = 4, "bad list";
    /// An element below the facets is in no list.
    Loose = 5, "loose";
    /// There are not exactly two elements between an element and a sub of its sub.
    Mitre = 6, "mitre";
    /// The workspace is too small.
    Bench = 7, "bench";
    /// The solid cannot be searched: its rank is below 2, or its dimension is not one less than its rank.
    NotFull = 8, "not full";
    /// Two vertices are within 1e-7 of each other on every axis.
    DoubleCorner = 9, "double corner";
    /// No facet is further than 1e-7 from the origin.
    Centred = 10, "centred";
    /// The matrix of the first corners is singular, or its inverse is not finite.
    Flat = 11, "flat";
    /// No member was found, or no rotation; in copying, there are no points or no matrices.
    Blank = 12, "blank";
    /// What there is to give out exceeds its buffer; in copying, also more than 2,048 copies.
    ShortSheet = 13, "short sheet";
    /// In copying, an image is not among the copies.
    Open = 14, "open";
    /// The types did not settle; no sheet brings this about.
    Unsettled = 15, "unsettled";
}

impl fmt::Display for Refusal {
    fn fmt(&self, f: &mut fmt::Formatter<'_>) -> fmt::Result {
        f.write_str(self.word())
    }
}

/// The error of every call: a refusal, and how many members or copies were written all the same.
#[derive(Clone, Copy, Debug, PartialEq, Eq, Hash)]
pub struct Refused {
    /// Why there is no result.
    pub why: Refusal,
    /// How many whole members or copies stand in the outputs. It is 0 but for [`Refusal::ShortSheet`] of a search and of copying, and
    /// [`Refusal::Open`].
    pub kept: usize,
}

impl fmt::Display for Refused {
    fn fmt(&self, f: &mut fmt::Formatter<'_>) -> fmt::Result {
        write!(f, "refused {}: {}", self.why.number(), self.why)
    }
}

impl std::error::Error for Refused {}

/// What every call gives.
pub type Result<T> = std::result::Result<T, Refused>;

/// Takes an answer apart: the refusal's number, 0 where there is none, stands above the 32 bits of the count.
fn answered(code: u64) -> Result<usize> {
    let count = (code & 0xffff_ffff) as usize;
    match Refusal::from_number((code >> 32) as u32) {
        None => Ok(count),
        Some(why) => Err(Refused { why, kept: count }),
    }
}

/// Writes the types of a sheet's elements into lent buffers, and says how many types there are.
///
/// `of` gets one cell for each proper element, by rising rank and index: its type. `table` gets four cells for each type: rank, type, example and count.
/// With E proper elements and I list entries the workspace needs 16 (E + I + 4) words and 8 (E + 8) floats; what it holds before has no part in the
/// answer. At a refusal `of` and `table` are as they were.
pub fn types_into(sheet: &[u8], words: &mut [u32], floats: &mut [f64], of: &mut [u16], table: &mut [u16]) -> Result<usize> {
    // SAFETY: each pointer and length are those of a slice. Slices that are lent for writing overlap no other.
    answered(unsafe {
        jidwaleb_types(
            sheet.as_ptr(),
            sheet.len(),
            words.as_mut_ptr(),
            words.len(),
            floats.as_mut_ptr(),
            floats.len(),
            of.as_mut_ptr(),
            of.len(),
            table.as_mut_ptr(),
            table.len(),
        )
    })
}

/// A type of elements.
#[derive(Clone, Copy, Debug, PartialEq, Eq, Hash)]
pub struct ElementType {
    /// The rank of its elements: 1 for corners, 2 for edges and so on.
    pub rank: u16,
    /// Its number, counted from 0 in each rank.
    pub number: u16,
    /// The lowest element that has it.
    pub example: u16,
    /// How many elements have it.
    pub count: u16,
}

/// The types of a solid's elements.
#[derive(Clone, Debug, PartialEq, Eq)]
pub struct Types {
    /// The type of each proper element, by rising rank and index.
    pub of: Vec<u16>,
    /// All types, by rising rank and number.
    pub types: Vec<ElementType>,
}

/// At least as many elements as the sheet can have, and a workspace of words and floats that is enough for it.
fn workspace(sheet: &[u8]) -> (usize, Vec<u32>, Vec<f64>) {
    // An element that is not a vertex takes at least 12 bits of the sheet, and an entry takes 11. There are at most 2,048 elements in each of
    // four ranks, and 8,192 entries in each of three.
    let elements = (2048 + sheet.len()).min(4 * 2048);
    let entries = sheet.len().min(3 * 8192);
    (elements, vec![0; 16 * (elements + entries + 4)], vec![0.0; 8 * (elements + 8)])
}

/// Which elements of a sheet's solid are alike: by their distances from the origin, and by what lies in them and what they lie in.
///
/// ```
/// // a rectangle: its corners are alike, and it has two types of edge
/// let types = jidwaleb::types(&std::fs::read("../samples/trial-rectangle.sheet")?)?;
/// let edges: Vec<_> = types.types.iter().filter(|t| t.rank == 2).map(|t| t.count).collect();
/// assert_eq!(edges, [2, 2]);
/// # Ok::<(), Box<dyn std::error::Error>>(())
/// ```
pub fn types(sheet: &[u8]) -> Result<Types> {
    let (elements, mut words, mut floats) = workspace(sheet);
    let (mut of, mut table) = (vec![0; elements], vec![0; 4 * elements]);
    let n = types_into(sheet, &mut words, &mut floats, &mut of, &mut table)?;
    let types: Vec<ElementType> = table[..4 * n]
        .chunks_exact(4)
        .map(|cells| ElementType { rank: cells[0], number: cells[1], example: cells[2], count: cells[3] })
        .collect();
    of.truncate(types.iter().map(|t| usize::from(t.count)).sum());
    Ok(Types { of, types })
}

/// The lent outputs of [`search_into`] and [`rotations_into`]. With D the dimension and V the number of vertices, n members take n D D floats, n V cells
/// and n marks.
#[derive(Debug)]
pub struct Outputs<'a> {
    /// The members' matrices, row by row.
    pub matrices: &'a mut [f64],
    /// For each member the vertex that each vertex goes to.
    pub rows: &'a mut [u16],
    /// For each member 1 where it is confirmed, and 0 otherwise.
    pub marks: &'a mut [u8],
}

type Search =
    unsafe extern "C" fn(*const u8, usize, *mut u32, usize, *mut f64, usize, *mut f64, usize, *mut u16, usize, *mut u8, usize) -> u64;

fn members_into(call: Search, sheet: &[u8], words: &mut [u32], floats: &mut [f64], out: Outputs<'_>) -> Result<usize> {
    // SAFETY: each pointer and length are those of a slice. Slices that are lent for writing overlap no other.
    answered(unsafe {
        call(
            sheet.as_ptr(),
            sheet.len(),
            words.as_mut_ptr(),
            words.len(),
            floats.as_mut_ptr(),
            floats.len(),
            out.matrices.as_mut_ptr(),
            out.matrices.len(),
            out.rows.as_mut_ptr(),
            out.rows.len(),
            out.marks.as_mut_ptr(),
            out.marks.len(),
        )
    })
}

/// Writes the symmetries of a sheet's solid into the lent outputs, and says how many there are. The workspace is as for [`types_into`].
///
/// Where the outputs are too short the answer is [`Refusal::ShortSheet`], and [`Refused::kept`] members stand in them.
pub fn search_into(sheet: &[u8], words: &mut [u32], floats: &mut [f64], out: Outputs<'_>) -> Result<usize> {
    members_into(jidwaleb_search, sheet, words, floats, out)
}

/// Writes the rotations alone, which are the members of determinant above 0, and says how many there are. The rest is as for [`search_into`].
pub fn rotations_into(sheet: &[u8], words: &mut [u32], floats: &mut [f64], out: Outputs<'_>) -> Result<usize> {
    members_into(jidwaleb_rotations, sheet, words, floats, out)
}

/// Members of a solid, in the order in which the search met them.
#[derive(Clone, Debug, PartialEq)]
pub struct Members {
    dimension: usize,
    vertices: usize,
    matrices: Vec<f64>,
    rows: Vec<u16>,
    marks: Vec<u8>,
}

impl Members {
    /// How many members there are.
    pub fn len(&self) -> usize {
        self.marks.len()
    }

    /// Whether there are none. The calls refuse rather than give none.
    pub fn is_empty(&self) -> bool {
        self.marks.is_empty()
    }

    /// The solid's dimension D: a matrix has D times D entries.
    pub fn dimension(&self) -> usize {
        self.dimension
    }

    /// How many vertices the solid has, and so how long a row is.
    pub fn vertices(&self) -> usize {
        self.vertices
    }

    /// The matrices of all members, one after another, each row by row.
    pub fn matrices(&self) -> &[f64] {
        &self.matrices
    }

    /// The rows of all members, one after another.
    pub fn rows(&self) -> &[u16] {
        &self.rows
    }

    /// The marks of all members: 1 where the member is confirmed, and 0 otherwise.
    pub fn marks(&self) -> &[u8] {
        &self.marks
    }

    /// Each member as its matrix (row by row; a vertex's image is the matrix times the vertex as a column), its row (the vertex that each vertex goes
    /// to), and whether it is confirmed.
    ///
    /// ```
    /// // where the confirmed rotations of a cube take corner 0
    /// let cube = jidwaleb::rotations(&std::fs::read("../samples/cube.sheet")?)?;
    /// let mut reached: Vec<u16> = cube.iter().filter(|(_, _, confirmed)| *confirmed).map(|(_, row, _)| row[0]).collect();
    /// reached.sort_unstable();
    /// reached.dedup();
    /// assert_eq!(reached, [0, 1, 2, 3, 4, 5, 6, 7]);
    /// # Ok::<(), Box<dyn std::error::Error>>(())
    /// ```
    pub fn iter(&self) -> MembersIter<'_> {
        // A solid that has members has a vertex and a dimension, so no part is of length 0.
        let matrices = self.matrices.chunks_exact(self.dimension * self.dimension);
        MembersIter { parts: matrices.zip(self.rows.chunks_exact(self.vertices)).zip(&self.marks) }
    }
}

impl<'a> IntoIterator for &'a Members {
    type Item = (&'a [f64], &'a [u16], bool);
    type IntoIter = MembersIter<'a>;

    fn into_iter(self) -> MembersIter<'a> {
        self.iter()
    }
}

/// The iterator of [`Members::iter`].
#[derive(Clone, Debug)]
pub struct MembersIter<'a> {
    parts: Zip<Zip<ChunksExact<'a, f64>, ChunksExact<'a, u16>>, Iter<'a, u8>>,
}

impl<'a> Iterator for MembersIter<'a> {
    type Item = (&'a [f64], &'a [u16], bool);

    fn next(&mut self) -> Option<Self::Item> {
        self.parts.next().map(|((matrix, row), mark)| (matrix, row, *mark == 1))
    }

    fn size_hint(&self) -> (usize, Option<usize>) {
        self.parts.size_hint()
    }
}

impl ExactSizeIterator for MembersIter<'_> {}

fn members(call: Search, sheet: &[u8]) -> Result<Members> {
    let (_, mut words, mut floats) = workspace(sheet);
    // The sheet's first fields are the rank, of 3 bits, the dimension, of 3, and, in a solid that can be searched, the number of vertices, of 12.
    let byte = |i: usize| sheet.get(i).map_or(0, |b| usize::from(*b));
    let (d, v) = (byte(0) >> 2 & 7, (byte(0) & 3) << 10 | byte(1) << 2 | byte(2) >> 6);
    let mut room = 128;
    loop {
        let (mut matrices, mut rows, mut marks) = (vec![0.0; room * d * d], vec![0; room * v], vec![0; room]);
        let out = Outputs { matrices: &mut matrices, rows: &mut rows, marks: &mut marks };
        match members_into(call, sheet, &mut words, &mut floats, out) {
            Err(Refused { why: Refusal::ShortSheet, .. }) => room *= 8,
            answer => {
                let n = answer?;
                matrices.truncate(n * d * d);
                rows.truncate(n * v);
                marks.truncate(n);
                return Ok(Members { dimension: d, vertices: v, matrices, rows, marks });
            }
        }
    }
}

/// All symmetries of a sheet's solid. There is at most one for each flag of the solid.
///
/// ```
/// use jidwaleb::Refusal;
///
/// assert_eq!(jidwaleb::search(&std::fs::read("../samples/dodeca.sheet")?)?.len(), 120);
/// // two corners, at 0 and 1e-7
/// let refused = jidwaleb::search(&std::fs::read("../samples/trial-dyad-0-eps.sheet")?).unwrap_err();
/// assert_eq!(refused.why, Refusal::DoubleCorner);
/// # Ok::<(), Box<dyn std::error::Error>>(())
/// ```
pub fn search(sheet: &[u8]) -> Result<Members> {
    members(jidwaleb_search, sheet)
}

/// The rotations of a sheet's solid, which are its symmetries of determinant above 0.
///
/// ```
/// assert_eq!(jidwaleb::rotations(&std::fs::read("../samples/dodeca.sheet")?)?.len(), 60);
/// # Ok::<(), Box<dyn std::error::Error>>(())
/// ```
pub fn rotations(sheet: &[u8]) -> Result<Members> {
    members(jidwaleb_rotations, sheet)
}

/// Writes the copies of the points under the matrices into `copies`, and for each matrix a row of the numbers of the copies' images into `table`. Says how
/// many copies there are.
///
/// A point has `dimension` floats, and a matrix has `dimension` times `dimension`, row by row; a point's image is the matrix times the point as a
/// column. At [`Refusal::ShortSheet`] the copies that fitted are
/// written, and at [`Refusal::Open`] all copies are, while the cells of the table are 65,535.
pub fn copy_into(dimension: usize, points: &[f64], turns: &[f64], copies: &mut [f64], table: &mut [u16]) -> Result<usize> {
    // SAFETY: each pointer and length are those of a slice. Slices that are lent for writing overlap no other.
    answered(unsafe {
        jidwaleb_copy(
            dimension as u64,
            points.as_ptr(),
            points.len(),
            turns.as_ptr(),
            turns.len(),
            copies.as_mut_ptr(),
            copies.len(),
            table.as_mut_ptr(),
            table.len(),
        )
    })
}

/// Copies of points.
#[derive(Clone, Debug, PartialEq)]
pub struct Copies {
    /// The copies, as many floats each as there are dimensions.
    pub points: Vec<f64>,
    /// A row for each matrix, which has for each copy the number of its image among the copies.
    pub table: Vec<u16>,
}

/// The copies of the points under the matrices, of which there may be at most 2,048. They are made twice, at first to count them.
///
/// ```
/// // the point (1, 0) under the four quarter turns
/// let turns = [1.0, 0.0, 0.0, 1.0, 0.0, -1.0, 1.0, 0.0, -1.0, 0.0, 0.0, -1.0, 0.0, 1.0, -1.0, 0.0];
/// let copies = jidwaleb::copy(2, &[1.0, 0.0], &turns)?;
/// assert_eq!(copies.points, [1.0, 0.0, 0.0, 1.0, -1.0, 0.0, 0.0, -1.0]);
/// // the second matrix takes each copy to the next
/// assert_eq!(copies.table[4..8], [1, 2, 3, 0]);
/// # Ok::<(), jidwaleb::Refused>(())
/// ```
pub fn copy(dimension: usize, points: &[f64], turns: &[f64]) -> Result<Copies> {
    // A dimension that is not 1 to 4 is refused, whatever is lent.
    let d = dimension.clamp(1, 4);
    let mut copies = vec![0.0; 2048 * d];
    // Without a table, refusal 13 says how many copies there are, and so how long a table they need. Where there are more than 2,048 it comes again.
    let n = match copy_into(dimension, points, turns, &mut copies, &mut []) {
        Err(Refused { why: Refusal::ShortSheet, kept }) => kept,
        answer => answer?,
    };
    let mut table = vec![0; n * (turns.len() / (d * d))];
    copy_into(dimension, points, turns, &mut copies, &mut table)?;
    copies.truncate(n * d);
    Ok(Copies { points: copies, table })
}

#[cfg(test)]
mod tests {
    use super::*;

    #[test]
    fn an_answer_without_refusal_is_its_count() {
        assert_eq!(answered(0), Ok(0));
        assert_eq!(answered(0xffff_ffff), Ok(0xffff_ffff));
    }

    #[test]
    fn a_refusal_keeps_its_count() {
        assert_eq!(answered(13 << 32 | 7), Err(Refused { why: Refusal::ShortSheet, kept: 7 }));
        assert_eq!(answered(13 << 32 | 7).unwrap_err().to_string(), "refused 13: short sheet");
    }

    #[test]
    fn an_unknown_refusal_is_a_refusal() {
        for number in [16, 25, u32::MAX] {
            let refused = answered(u64::from(number) << 32).unwrap_err();
            assert_eq!(refused, Refused { why: Refusal::Unknown(number), kept: 0 });
            assert_eq!(refused.to_string(), format!("refused {number}: unknown"));
        }
    }

    #[test]
    fn numbers_and_refusals_correspond() {
        for number in 1..=20 {
            let refusal = Refusal::from_number(number).unwrap();
            assert_eq!(refusal.number(), number);
            assert_eq!(matches!(refusal, Refusal::Unknown(_)), number > 15);
        }
    }
}
