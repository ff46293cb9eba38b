//! Writes faces as SVG.
use super::scene::Face;
use crate::labels::Colour;
use std::fmt::Write;

/// A colour as SVG names it.
fn hex([red, green, blue]: Colour) -> String {
    format!("#{red:02x}{green:02x}{blue:02x}")
}

/// The path of four corners: the first, and the steps to the others, in tenths of a pixel.
fn path(corners: [[f64; 2]; 4]) -> String {
    let [a, b, c, d] = corners.map(|corner| corner.map(|x| (x * 10.0).round() as i64));
    let step = |p: [i64; 2], q: [i64; 2]| format!("{} {}", q[0] - p[0], q[1] - p[1]);
    format!("M{} {}l{} {} {}z", a[0], a[1], step(a, b), step(b, c), step(c, d))
}

/// The picture of faces in a square of this side, the first face farthest behind.
pub fn write(faces: &[Face], side: usize) -> String {
    let tenths = 10 * side;
    let mut text = format!(
        "<svg xmlns=\"http://www.w3.org/2000/svg\" viewBox=\"0 0 {tenths} {tenths}\" width=\"{side}\" height=\"{side}\">\n\
         <rect width=\"100%\" height=\"100%\" fill=\"#fff\"/>\n\
         <g stroke=\"#000\" stroke-opacity=\"0.4\" stroke-width=\"8\" stroke-linejoin=\"round\">\n"
    );
    for face in faces {
        let _ = writeln!(text, "<path fill=\"{}\" d=\"{}\"/>", hex(face.fill), path(face.corners));
    }
    text + "</g>\n</svg>\n"
}

#[cfg(test)]
mod tests {
    use super::*;

    #[test]
    fn a_path_goes_from_corner_to_corner() {
        let corners = [[0.0, 0.04], [10.0, 0.0], [10.06, 9.9], [-1.0, 10.0]];
        assert_eq!(path(corners), "M0 0l100 0 1 99 -111 1z");
    }

    #[test]
    fn a_colour_is_written_in_hex() {
        assert_eq!(hex([255, 9, 16]), "#ff0910");
    }
}
