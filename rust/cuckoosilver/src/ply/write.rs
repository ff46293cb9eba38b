//! Writes a sheet.
use crate::labels;
use quads::{Counts, Sheet};
use std::fmt::Write;

/// The header of a file with these counts.
fn header(points: usize, quads: usize, format: &str, comment: &str) -> String {
    format!(
        "ply\nformat {format} 1.0\ncomment {comment}\n\
         element vertex {points}\nproperty double x\nproperty double y\nproperty double z\n\
         element face {quads}\nproperty list uchar uint vertex_indices\n\
         property uchar red\nproperty uchar green\nproperty uchar blue\nproperty uchar label\nend_header\n"
    )
}

/// The file of a sheet, as text or binary, with a comment.
pub fn write(sheet: &Sheet, ascii: bool, comment: &str) -> Vec<u8> {
    let Counts { points, quads, labels } = sheet.counts();
    let quads = quads.min(labels);
    if ascii {
        (header(points, quads, "ascii", comment) + &text(sheet)).into_bytes()
    } else {
        [header(points, quads, "binary_little_endian", comment).as_bytes(), &binary(sheet)].concat()
    }
}

/// The values as text: a line a point and a line a quad.
fn text(sheet: &Sheet) -> String {
    let mut text = String::new();
    for [x, y, z] in &sheet.points {
        let _ = writeln!(text, "{x:?} {y:?} {z:?}");
    }
    for ([a, b, c, d], &label) in sheet.quads.iter().zip(&sheet.labels) {
        let [red, green, blue] = labels::colour(label);
        let _ = writeln!(text, "4 {a} {b} {c} {d} {red} {green} {blue} {label}");
    }
    text
}

/// The values, little-endian.
fn binary(sheet: &Sheet) -> Vec<u8> {
    let mut bytes = Vec::with_capacity(24 * sheet.points.len() + 21 * sheet.quads.len());
    for coordinate in sheet.points.as_flattened() {
        bytes.extend(coordinate.to_le_bytes());
    }
    for (quad, &label) in sheet.quads.iter().zip(&sheet.labels) {
        bytes.push(4);
        bytes.extend(quad.iter().flat_map(|corner| corner.to_le_bytes()));
        bytes.extend(labels::colour(label));
        bytes.push(label);
    }
    bytes
}

#[cfg(test)]
mod tests {
    use super::*;
    use crate::ply::read;

    /// Two quads and six points of hard numbers.
    fn sheet() -> Sheet {
        Sheet {
            points: vec![
                [0.1, -0.0, 1e-310],
                [1e300, 2.0 / 3.0, -5.5],
                [f64::MIN_POSITIVE, f64::MAX, 1.0],
                [3.0, 4.0, 5.0],
                [6.0, 7.0, 8.0],
                [9.0, 10.0, 1e16],
            ],
            quads: vec![[0, 1, 2, 3], [3, 2, 5, 4]],
            labels: vec![0, 7],
        }
    }

    #[test]
    fn what_is_written_is_read_again() {
        for ascii in [false, true] {
            let bytes = write(&sheet(), ascii, "a word");
            assert_eq!(read(&mut &bytes[..], None), Ok((sheet(), vec!["a word".into()])));
        }
    }

    #[test]
    fn bits_are_kept() {
        let read = read(&mut &write(&sheet(), true, "")[..], None).unwrap().0;
        assert!(read.points[0][1].is_sign_negative());
    }

    #[test]
    fn the_text_is_that_of_the_format() {
        let text = String::from_utf8(write(&sheet(), true, "c")).unwrap();
        assert!(text.starts_with("ply\nformat ascii 1.0\ncomment c\nelement vertex 6\nproperty double x\n"));
        assert!(text.ends_with("4 0 1 2 3 86 180 233 0\n4 3 2 5 4 153 153 153 7\n"));
    }
}
