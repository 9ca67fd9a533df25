//! Makes the stored matrices that `replay floats` answers to, with the arithmetic of the oracle's stand-in for nalgebra (document
//! 01, section 1). tools/make_floats.sh builds and runs it once; the files are kept.
//!
//! All numbers have eight bytes, highest byte first. For each matrix, the dimension and the entries' bit patterns, row by row, go to standard
//! output. The answers go to standard error: 1 and the inverse's patterns, or 0 where it is singular; the determinant; the product of the
//! matrix with its own rows in falling order; and the image of its first row. A NaN is written as 0x7ff8000000000000.
use nalgebra::DMatrix;
use std::io::Write;

struct Random(u64);

impl Random {
    fn next(&mut self) -> u64 {
        self.0 ^= self.0 << 13;
        self.0 ^= self.0 >> 7;
        self.0 ^= self.0 << 17;
        self.0
    }

    fn unit(&mut self) -> f64 {
        (self.next() >> 11) as f64 / (1u64 << 53) as f64 * 2.0 - 1.0
    }

    // The kinds are any value in (-1, 1); small whole numbers, which tie and make singular matrices; values of wildly different size; zeros of
    // both signs and units; and small whole numbers among which NaN and infinities stand.
    fn entry(&mut self, kind: u64) -> f64 {
        match kind {
            0 => self.unit(),
            1 => (self.next() % 5) as f64 - 2.0,
            2 => self.unit() * 2f64.powi((self.next() % 1200) as i32 - 600),
            3 => [0.0, -0.0, 1.0, -1.0][(self.next() % 4) as usize],
            _ => [1.0, 2.0, -3.0, 0.5, f64::NAN, f64::INFINITY, f64::NEG_INFINITY, -1.0][(self.next() % 8) as usize],
        }
    }
}

fn pattern(x: f64) -> u64 {
    if x.is_nan() { 0x7ff8_0000_0000_0000 } else { x.to_bits() }
}

fn main() {
    let mut random = Random(20261115);
    let (mut given, mut answers) = (Vec::new(), Vec::new());
    for k in 0..600u64 {
        let d = (k % 4 + 1) as usize;
        let kind = k / 4 % 5;
        let entries: Vec<f64> = (0..d * d).map(|_| random.entry(kind)).collect();
        let m = DMatrix::from_row_slice(d, &entries);
        given.push(d as u64);
        given.extend(entries.iter().map(|x| pattern(*x)));
        match m.clone().try_inverse() {
            None => answers.push(0),
            Some(inverse) => {
                answers.push(1);
                for i in 0..d {
                    for j in 0..d {
                        answers.push(pattern(inverse[(i, j)]));
                    }
                }
            }
        }
        answers.push(pattern(m.determinant()));
        let falling: Vec<f64> = (0..d).rev().flat_map(|i| entries[i * d..(i + 1) * d].to_vec()).collect();
        let square = m.clone() * &DMatrix::from_row_slice(d, &falling);
        for i in 0..d {
            for j in 0..d {
                answers.push(pattern(square[(i, j)]));
            }
        }
        let row = nalgebra::DVector::from(entries[..d].to_vec());
        let image = m.clone() * &row;
        for i in 0..d {
            answers.push(pattern(image[(i, 0)]));
        }
    }
    let bytes = |l: &[u64]| l.iter().flat_map(|n| n.to_be_bytes()).collect::<Vec<u8>>();
    std::io::stdout().write_all(&bytes(&given)).unwrap();
    std::io::stderr().write_all(&bytes(&answers)).unwrap();
}
