//! The calls on the sample sheets and on small input: what `kit` prints for each sample is what the wrapper gives.

use jidwaleb::{copy, copy_into, rotations, rotations_into, search, search_into, types, types_into, Outputs, Refusal, Refused};

fn sample(name: &str) -> Vec<u8> {
    std::fs::read(format!("{}/../samples/{}.sheet", env!("CARGO_MANIFEST_DIR"), name)).expect("a sample")
}

fn refused<T: std::fmt::Debug>(answer: jidwaleb::Result<T>) -> Refusal {
    answer.unwrap_err().why
}

#[test]
fn types_of_the_samples() {
    let mut seen = 0;
    for entry in std::fs::read_dir(concat!(env!("CARGO_MANIFEST_DIR"), "/../samples")).unwrap() {
        let path = entry.unwrap().path();
        let kit = std::fs::read_to_string(path.with_extension("kit")).unwrap();
        // what `kit` refuses because of its own limits (the sheet's bytes, and the space that it lends) is not refused here
        if path.extension() != Some("sheet".as_ref()) || kit.starts_with("refused") {
            continue;
        }
        let all = types(&std::fs::read(&path).unwrap()).unwrap();
        let mut lines = format!("types {}\n", all.types.len());
        for t in &all.types {
            lines += &format!("{} {} {} {}\n", t.rank, t.number, t.example, t.count);
        }
        assert!(kit.starts_with(&lines), "{}", path.display());
        assert_eq!(all.of.len(), all.types.iter().map(|t| usize::from(t.count)).sum::<usize>());
        seen += 1;
    }
    assert!(seen > 10);
}

#[test]
fn members_of_the_square() {
    let members = search(&sample("trial-square")).unwrap();
    assert_eq!((members.len(), members.dimension(), members.vertices(), members.is_empty()), (8, 2, 4, false));
    assert_eq!((members.matrices().len(), members.rows().len(), members.marks()), (32, 32, &[1; 8][..]));
    // the first member is the identity
    assert_eq!(members.iter().next(), Some((&[1.0, 0.0, 0.0, 1.0][..], &[0, 1, 2, 3][..], true)));
    let mut iterator = members.iter();
    for left in (0..8).rev() {
        let (matrix, row, confirmed) = iterator.next().unwrap();
        assert_eq!((matrix.len(), row.len(), confirmed, iterator.len()), (4, 4, true, left));
    }
    assert_eq!(iterator.next(), None);
    let rows: std::collections::HashSet<&[u16]> = (&members).into_iter().map(|(_, row, _)| row).collect();
    assert_eq!(rows.len(), 8);
    assert_eq!(rotations(&sample("trial-square")).unwrap().len(), 4);
}

#[test]
fn members_take_corners_where_their_rows_say() {
    // samples/trial-square.sheet
    let corners = [[1.0, 1.0], [-1.0, 1.0], [-1.0, -1.0], [1.0, -1.0]];
    for (matrix, row, _) in &search(&sample("trial-square")).unwrap() {
        for (corner, to) in corners.iter().zip(row) {
            let image = [matrix[0] * corner[0] + matrix[1] * corner[1], matrix[2] * corner[0] + matrix[3] * corner[1]];
            assert_eq!(image, corners[usize::from(*to)]);
        }
    }
}

#[test]
fn members_that_are_not_confirmed() {
    let members = search(&sample("pleated-cube-0")).unwrap();
    assert!(!members.is_empty() && members.iter().all(|(_, _, confirmed)| !confirmed));
}

#[test]
fn more_members_than_the_first_room() {
    assert_eq!(search(&sample("tesseract")).unwrap().len(), 384);
    assert_eq!(rotations(&sample("tesseract")).unwrap().len(), 192);
}

#[test]
fn refusals_of_sheets() {
    assert_eq!(refused(types(&[])), Refusal::CutSheet);
    assert_eq!(refused(types(&[255])), Refusal::Format);
    assert_eq!(refused(search(&sample("trial-rank1"))), Refusal::NotFull);
    assert_eq!(refused(search(&sample("trial-dyad-0-eps"))), Refusal::DoubleCorner);
    assert_eq!(refused(search(&sample("trial-dyad-eps"))), Refusal::Centred);
    assert_eq!(refused(rotations(&sample("trial-dyad-0-1"))), Refusal::Flat);
}

/// A slice without elements has a pointer that points nowhere; nothing is read or written through it.
#[test]
fn empty_buffers() {
    let (mut words, mut floats) = ([0; 4096], [0.0; 2048]);
    let none = || Outputs { matrices: &mut [], rows: &mut [], marks: &mut [] };
    let square = sample("trial-square");
    assert_eq!(refused(types_into(&[], &mut [], &mut [], &mut [], &mut [])), Refusal::CutSheet);
    assert_eq!(refused(search_into(&[], &mut [], &mut [], none())), Refusal::CutSheet);
    assert_eq!(refused(rotations_into(&[], &mut [], &mut [], none())), Refusal::CutSheet);
    assert_eq!(refused(types_into(&square, &mut [], &mut [], &mut [], &mut [])), Refusal::Bench);
    assert_eq!(refused(types_into(&square, &mut words, &mut floats, &mut [], &mut [])), Refusal::ShortSheet);
    assert_eq!(search_into(&square, &mut words, &mut floats, none()), Err(Refused { why: Refusal::ShortSheet, kept: 0 }));
    assert_eq!(rotations_into(&square, &mut words, &mut floats, none()), Err(Refused { why: Refusal::ShortSheet, kept: 0 }));
    assert_eq!(refused(copy_into(1, &[], &[], &mut [], &mut [])), Refusal::Blank);
    // rank 1 has no proper elements, and so its types fit into no cells
    assert_eq!(types_into(&sample("trial-rank1"), &mut words, &mut floats, &mut [], &mut []), Ok(0));
}

#[test]
fn what_fits_is_kept() {
    let (mut words, mut floats) = ([0; 4096], [0.0; 2048]);
    let (mut matrices, mut rows, mut marks) = ([9.0; 4 * 3 + 1], [9; 4 * 8], [9; 8]);
    let out = Outputs { matrices: &mut matrices, rows: &mut rows, marks: &mut marks };
    let answer = search_into(&sample("trial-square"), &mut words, &mut floats, out);
    assert_eq!(answer, Err(Refused { why: Refusal::ShortSheet, kept: 3 }));
    assert_eq!(matrices[12], 9.0);
    assert_eq!(rows[12..], [9; 20]);
    assert_eq!(marks, [1, 1, 1, 9, 9, 9, 9, 9]);
    let all = search(&sample("trial-square")).unwrap();
    assert_eq!((&matrices[..12], &rows[..12]), (&all.matrices()[..12], &all.rows()[..12]));
}

#[test]
fn copies_and_their_refusals() {
    let quarter = [0.0, -1.0, 1.0, 0.0];
    assert_eq!(copy(2, &[1.0, 0.0], &quarter), Err(Refused { why: Refusal::Open, kept: 1 }));
    assert_eq!(refused(copy(2, &[1.0], &quarter)), Refusal::CutSheet);
    assert_eq!(refused(copy(5, &[], &[])), Refusal::Format);
    assert_eq!(refused(copy(0, &[1.0], &[1.0])), Refusal::Format);
    assert_eq!(refused(copy(1, &[f64::NAN], &[1.0])), Refusal::OffTheBoard);
    assert_eq!(refused(copy(1, &[], &[1.0])), Refusal::Blank);
    let line: Vec<f64> = (0..2049).map(f64::from).collect();
    assert_eq!(copy(1, &line[..2048], &[1.0]).unwrap().points, line[..2048]);
    assert_eq!(copy(1, &line, &[1.0]), Err(Refused { why: Refusal::ShortSheet, kept: 2048 }));
}
