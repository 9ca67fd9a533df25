//! The calls of libjidwaleb.a (crates/jidwaleb_c). Nothing checks these declarations against the Rattle source, so the two have to be kept alike by
//! hand. A slice is passed as a pointer and a length. Every lent buffer, the input too, stands between guard cells, which are looked at after the
//! call. What a call only reads is lent in a way that it could be changed as well, and is looked at afterwards.

extern "C" {
    fn jidwaleb_copy(
        dimension: u64,
        points: *const f64,
        points_len: usize,
        turns: *const f64,
        turns_len: usize,
        copies: *mut f64,
        copies_len: usize,
        table: *mut u16,
        table_len: usize,
    ) -> u64;
    fn jidwaleb_types(
        sheet: *const u8,
        sheet_len: usize,
        words: *mut u32,
        words_len: usize,
        floats: *mut f64,
        floats_len: usize,
        of: *mut u16,
        of_len: usize,
        table: *mut u16,
        table_len: usize,
    ) -> u64;
    fn jidwaleb_search(
        sheet: *const u8,
        sheet_len: usize,
        words: *mut u32,
        words_len: usize,
        floats: *mut f64,
        floats_len: usize,
        matrices: *mut f64,
        matrices_len: usize,
        rows: *mut u16,
        rows_len: usize,
        marks: *mut u8,
        marks_len: usize,
    ) -> u64;
    fn jidwaleb_rotations(
        sheet: *const u8,
        sheet_len: usize,
        words: *mut u32,
        words_len: usize,
        floats: *mut f64,
        floats_len: usize,
        matrices: *mut f64,
        matrices_len: usize,
        rows: *mut u16,
        rows_len: usize,
        marks: *mut u8,
        marks_len: usize,
    ) -> u64;
}

/// The refusal's number, or 0 where the call gave its result, and the count.
#[derive(Clone, Copy, Debug, PartialEq, Eq)]
pub struct Answer {
    pub refusal: u64,
    pub count: usize,
}

impl Answer {
    fn of(code: u64) -> Self {
        Answer { refusal: code >> 32, count: (code & 0xffff_ffff) as usize }
    }
}

/// A cell of a buffer, with the value that it holds at its place as long as no call has written it.
pub trait Cell: Copy {
    fn unwritten(place: usize) -> Self;
    fn same(self, other: Self) -> bool;
}

impl Cell for f64 {
    fn unwritten(place: usize) -> f64 {
        f64::from_bits(0x7000_0000_0000_0000 + place as u64)
    }
    fn same(self, other: f64) -> bool {
        self.to_bits() == other.to_bits() || self.is_nan() && other.is_nan()
    }
}

macro_rules! whole {
    ($($t:ty),*) => {$(
        impl Cell for $t {
            fn unwritten(place: usize) -> $t {
                <$t>::MAX - 1 - (place % 100) as $t
            }
            fn same(self, other: $t) -> bool {
                self == other
            }
        }
    )*};
}
whole!(u8, u16, u32);

const GUARD: usize = 64;

/// A buffer to lend, which stands between guard cells.
pub struct Lent<T> {
    cells: Vec<T>,
}

impl<T: Cell> Lent<T> {
    pub fn new(len: usize) -> Self {
        Lent { cells: (0..len + 2 * GUARD).map(T::unwritten).collect() }
    }

    pub fn holding(values: &[T]) -> Self {
        let mut lent = Self::new(values.len());
        lent.cells[GUARD..GUARD + values.len()].copy_from_slice(values);
        lent
    }

    pub fn len(&self) -> usize {
        self.cells.len() - 2 * GUARD
    }

    pub fn cells(&self) -> &[T] {
        &self.cells[GUARD..self.cells.len() - GUARD]
    }

    fn lend(&mut self) -> &mut [T] {
        let end = self.cells.len() - GUARD;
        &mut self.cells[GUARD..end]
    }

    /// Whether the cells from `from` on, and the guard cells on both sides, hold what they held.
    pub fn untouched_from(&self, from: usize) -> bool {
        let written = GUARD..GUARD + from;
        self.cells.iter().enumerate().all(|(i, x)| written.contains(&i) || x.same(T::unwritten(i)))
    }

    /// Whether the first cells are these values, and all others are untouched.
    pub fn is(&self, values: &[T]) -> bool {
        values.len() <= self.len() && self.cells().iter().zip(values).all(|(a, b)| a.same(*b)) && self.untouched_from(values.len())
    }
}

pub fn copy(dimension: u64, points: &mut Lent<f64>, turns: &mut Lent<f64>, copies: &mut Lent<f64>, table: &mut Lent<u16>) -> Answer {
    let (points, turns, copies, table) = (points.lend(), turns.lend(), copies.lend(), table.lend());
    Answer::of(unsafe {
        jidwaleb_copy(
            dimension,
            points.as_ptr(),
            points.len(),
            turns.as_ptr(),
            turns.len(),
            copies.as_mut_ptr(),
            copies.len(),
            table.as_mut_ptr(),
            table.len(),
        )
    })
}

/// The workspace of a call on a solid. What it holds afterwards is free.
pub struct Workspace {
    pub words: Lent<u32>,
    pub floats: Lent<f64>,
}

impl Workspace {
    pub fn new(words: usize, floats: usize) -> Self {
        Workspace { words: Lent::new(words), floats: Lent::new(floats) }
    }

    pub fn guarded(&self) -> bool {
        self.words.untouched_from(self.words.len()) && self.floats.untouched_from(self.floats.len())
    }
}

pub fn types(sheet: &mut Lent<u8>, space: &mut Workspace, of: &mut Lent<u16>, table: &mut Lent<u16>) -> Answer {
    let (sheet, words, floats, of, table) = (sheet.lend(), space.words.lend(), space.floats.lend(), of.lend(), table.lend());
    Answer::of(unsafe {
        jidwaleb_types(
            sheet.as_ptr(),
            sheet.len(),
            words.as_mut_ptr(),
            words.len(),
            floats.as_mut_ptr(),
            floats.len(),
            of.as_mut_ptr(),
            of.len(),
            table.as_mut_ptr(),
            table.len(),
        )
    })
}

/// The outputs of a search.
pub struct Members {
    pub matrices: Lent<f64>,
    pub rows: Lent<u16>,
    pub marks: Lent<u8>,
}

pub fn search(sheet: &mut Lent<u8>, space: &mut Workspace, out: &mut Members, only_rotations: bool) -> Answer {
    let call = if only_rotations { jidwaleb_rotations } else { jidwaleb_search };
    let (sheet, words, floats) = (sheet.lend(), space.words.lend(), space.floats.lend());
    let (matrices, rows, marks) = (out.matrices.lend(), out.rows.lend(), out.marks.lend());
    Answer::of(unsafe {
        call(
            sheet.as_ptr(),
            sheet.len(),
            words.as_mut_ptr(),
            words.len(),
            floats.as_mut_ptr(),
            floats.len(),
            matrices.as_mut_ptr(),
            matrices.len(),
            rows.as_mut_ptr(),
            rows.len(),
            marks.as_mut_ptr(),
            marks.len(),
        )
    })
}
