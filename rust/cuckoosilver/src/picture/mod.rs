//! Pictures of a sheet: its quads that face the eye, drawn from the farthest to the nearest, flatly shaded in the
//! colours of their labels.
mod png;
mod raster;
mod scene;
mod svg;
mod vector;

use quads::Sheet;

/// How a picture is seen.
#[derive(Clone, Copy, Debug, PartialEq)]
pub struct View {
    /// Where the eye is, seen from the middle of the sheet; z is up.
    pub from: [f64; 3],
    /// The side of the picture in pixels.
    pub size: usize,
}

impl Default for View {
    fn default() -> View {
        View { from: [1.0, -1.6, 1.5], size: 800 }
    }
}

/// The picture as an SVG file.
pub fn svg(sheet: &Sheet, view: &View) -> String {
    svg::write(&scene::faces(sheet, view), view.size)
}

/// The picture as a PNG file.
pub fn png(sheet: &Sheet, view: &View) -> Vec<u8> {
    png::write(&raster::draw(&scene::faces(sheet, view), view.size), view.size)
}
