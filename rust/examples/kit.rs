//! `kit SHEET` prints what the program `kit` prints for a sheet. It lends the calls as much space as that program does, and it too refuses a sheet
//! of more than 8,192 bytes. `kit` alone copies a point by quarter turns, and then by one of them.

use jidwaleb::{copy, rotations, rotations_into, search, search_into, types, types_into, Outputs, Refusal, Result};

const LONGEST: usize = 8192;

/// The line that counts the types, and a line for each: rank, type, example and count.
fn type_lines(sheet: &[u8]) -> Result<String> {
    let (mut words, mut floats) = ([0; 4096], [0.0; 2048]);
    let (mut of, mut table) = ([0; 256], [0; 4 * 256]);
    let n = types_into(sheet, &mut words, &mut floats, &mut of, &mut table)?;
    // The call that allocates space for every sheet gives the same.
    let all = types(sheet)?;
    assert_eq!(all.of, of[..all.of.len()]);
    let mut text = format!("types {}\n", n);
    for (t, cells) in all.types.iter().zip(table.chunks(4)) {
        assert_eq!([t.rank, t.number, t.example, t.count], cells);
        text += &format!("{} {} {} {}\n", t.rank, t.number, t.example, t.count);
    }
    assert_eq!(all.types.len(), n);
    Ok(text)
}

/// The line that says how many members there are, how many of them are confirmed, and how many are rotations.
fn members_line(sheet: &[u8]) -> Result<String> {
    let (mut words, mut floats) = ([0; 4096], [0.0; 2048]);
    let (mut matrices, mut rows, mut marks) = ([0.0; 1024], [0; 8192], [0; 512]);
    let out = Outputs { matrices: &mut matrices, rows: &mut rows, marks: &mut marks };
    let n = search_into(sheet, &mut words, &mut floats, out)?;
    // The call that allocates space for every member gives the same.
    let all = search(sheet)?;
    assert_eq!(all.matrices(), &matrices[..all.matrices().len()]);
    assert_eq!(all.rows(), &rows[..all.rows().len()]);
    assert_eq!(all.marks(), &marks[..n]);
    let confirmed = marks[..n].iter().filter(|m| **m == 1).count();
    let out = Outputs { matrices: &mut matrices, rows: &mut rows, marks: &mut marks };
    let turning = match rotations_into(sheet, &mut words, &mut floats, out) {
        Err(refused) if refused.why == Refusal::Blank => 0,
        answer => answer?,
    };
    assert!(rotations(sheet).map_or(turning == 0, |r| r.rows() == &rows[..r.rows().len()] && r.len() == turning));
    Ok(format!("members {} confirmed {} rotations {}\n", n, confirmed, turning))
}

fn main() {
    if let Some(path) = std::env::args().nth(1) {
        let sheet = std::fs::read(&path).expect("a sheet");
        if sheet.len() > LONGEST {
            return println!("refused {}", Refusal::CutSheet.number());
        }
        for lines in [type_lines, members_line] {
            match lines(&sheet) {
                Ok(text) => print!("{}", text),
                Err(refused) => return println!("refused {}", refused.why.number()),
            }
        }
        return;
    }
    let turns = [1.0, 0.0, 0.0, 1.0, 0.0, -1.0, 1.0, 0.0, -1.0, 0.0, 0.0, -1.0, 0.0, 1.0, -1.0, 0.0];
    let copies = copy(2, &[1.0, 0.0], &turns).expect("four copies");
    assert_eq!(copies.points.len(), 8);
    println!("copies {}", copies.points.len() / 2);
    let row: Vec<String> = copies.table[4..8].iter().map(u16::to_string).collect();
    println!("quarter turn {}", row.join(" "));
    let alone = copy(2, &[1.0, 0.0], &turns[4..8]).expect_err("one image");
    assert_eq!(alone.why, Refusal::Open);
    println!("{}", alone);
}
