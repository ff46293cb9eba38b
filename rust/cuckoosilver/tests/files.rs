//! Files, by running the program: PLY that is read again, and pictures.
mod common;
use common::{CUBE, SHELL, UNIT_BOX, does, folder, prints, run_in};
use std::fs;

#[test]
fn a_sheet_that_is_written_is_read_again() {
    let here = folder("again");
    let steps = format!("{SHELL} draw 8 coarsen 2 regularize 2 subdivide write a.ply --ascii write b.ply quality");
    let record = does(&here, &steps);
    assert_eq!(does(&here, "read a.ply quality"), record);
    assert_eq!(does(&here, "read b.ply quality write c.ply --ascii write d.ply"), record);
    let bytes = |file: &str| fs::read(here.join(file)).unwrap();
    assert!(bytes("a.ply") == bytes("c.ply") && bytes("b.ply") == bytes("d.ply"));
}

#[test]
fn the_band_stands_in_the_file_and_options_go_before_it() {
    let here = folder("band");
    does(&here, &format!("{SHELL} draw 8 write a.ply"));
    let head = String::from_utf8_lossy(&fs::read(here.join("a.ply")).unwrap()).into_owned();
    let band = "--ball 0.0 0.0 0.0 0.0 --box -1.0 -1.0 -1.0 1.0 1.0 1.0 --levels 0.25 0.64";
    assert!(head.contains(&format!("\ncomment cuckoosilver {band}\n")));
    let run = run_in(&here, "--levels 1 0 read a.ply display");
    assert_eq!(run.code, Some(1));
    assert!(run.log.contains("1 box"));
}

#[test]
fn a_cube_made_by_hand_is_read() {
    let here = folder("cube");
    fs::write(here.join("cube.ply"), CUBE).unwrap();
    let out = does(&here, &format!("{UNIT_BOX} read cube.ply display refine display read cube.ply rows display"));
    let quads: Vec<&str> = out.lines().step_by(2).map(|line| line[12..].trim()).collect();
    assert_eq!(quads, ["6", "24", "30"]);
}

/// The unit cube as a binary file, its bytes in the order that `order` gives them, the lowest first before.
fn binary_cube(format: &str, order: fn(&mut [u8])) -> Vec<u8> {
    let mut file = format!(
        "ply\nformat {format} 1.0\nelement vertex 8\nproperty double x\nproperty float y\nproperty short z\n\
         element face 6\nproperty list ushort uint vertex_indices\nproperty int label\nend_header\n"
    )
    .into_bytes();
    let mut put = |mut bytes: Vec<u8>| {
        order(&mut bytes);
        file.extend(bytes);
    };
    for corner in 0..8_u8 {
        put(f64::from(corner & 1).to_le_bytes().to_vec());
        put(f32::from((corner >> 1) & 1).to_le_bytes().to_vec());
        put(i16::from(corner >> 2).to_le_bytes().to_vec());
    }
    let quads = [[0, 4, 6, 2], [1, 3, 7, 5], [0, 1, 5, 4], [2, 6, 7, 3], [0, 2, 3, 1], [4, 5, 7, 6]];
    for (label, quad) in (2_i32..).zip(quads) {
        put(4_u16.to_le_bytes().to_vec());
        quad.into_iter().for_each(|corner: u32| put(corner.to_le_bytes().to_vec()));
        put(label.to_le_bytes().to_vec());
    }
    file
}

#[test]
fn binary_files_are_read_in_both_orders_of_bytes() {
    let here = folder("orders");
    fs::write(here.join("cube.ply"), CUBE).unwrap();
    fs::write(here.join("little.ply"), binary_cube("binary_little_endian", |_| {})).unwrap();
    fs::write(here.join("big.ply"), binary_cube("binary_big_endian", <[u8]>::reverse)).unwrap();
    does(&here, "read cube.ply write a.ply read little.ply write b.ply read big.ply write c.ply");
    let bytes = |file: &str| fs::read(here.join(file)).unwrap();
    assert!(bytes("little.ply") != bytes("big.ply"));
    assert!(bytes("a.ply") == bytes("b.ply") && bytes("a.ply") == bytes("c.ply"));
}

#[test]
fn a_quad_without_label_or_colour_gets_the_label_that_is_given() {
    let here = folder("label");
    let bare = "ply\nformat ascii 1.0\nelement vertex 4\nproperty float x\nproperty float y\nproperty float z\n\
         element face 1\nproperty list uchar int vertex_indices\nend_header\n0 0 0 1 0 0 1 1 0 0 1 0 4 0 1 2 3\n";
    fs::write(here.join("bare.ply"), bare).unwrap();
    fs::write(here.join("cube.ply"), CUBE).unwrap();
    does(&here, "--ascii --label 3 read bare.ply write a.ply read cube.ply write b.ply");
    let lines = |file: &str, ending: &str| {
        let text = fs::read_to_string(here.join(file)).unwrap();
        text.lines().filter(|line| line.ends_with(ending)).count()
    };
    assert_eq!(lines("a.ply", "4 0 1 2 3 240 228 66 3"), 1);
    assert_eq!(lines("b.ply", "153 153 153 7"), 1);
    let run = run_in(&here, "read bare.ply");
    assert_eq!(run.code, Some(1));
    assert!(run.log.contains("face 0: it has neither a label nor a colour; give --label N"), "{}", run.log);
}

#[test]
fn an_svg_has_a_path_for_each_quad_that_is_seen() {
    let here = folder("svg");
    fs::write(here.join("cube.ply"), CUBE).unwrap();
    does(&here, "read cube.ply picture cube.svg --view 0 0 1 --size 100 picture top.svg");
    let text = |file: &str| fs::read_to_string(here.join(file)).unwrap();
    assert_eq!(text("cube.svg").matches("<path").count(), 3);
    assert_eq!(text("top.svg").matches("<path").count(), 1);
    assert!(text("top.svg").contains("d=\"M40 960l920 0 0 -920 -920 0z\""));
}

/// The pixels of a PNG file of stored blocks, three bytes each.
fn pixels(file: &[u8], side: usize) -> Vec<[u8; 3]> {
    let data = file.windows(4).position(|name| name == b"IDAT").unwrap() + 4;
    let (mut at, mut bytes) = (data + 2, vec![]);
    loop {
        let length = usize::from(u16::from_le_bytes([file[at + 1], file[at + 2]]));
        bytes.extend(&file[at + 5..at + 5 + length]);
        if file[at] == 1 {
            break;
        }
        at += 5 + length;
    }
    bytes.chunks(3 * side + 1).flat_map(|row| row[1..].as_chunks::<3>().0.to_vec()).collect()
}

#[test]
fn a_png_shows_the_colours_of_the_labels() {
    let here = folder("png");
    fs::write(here.join("cube.ply"), CUBE).unwrap();
    does(&here, "read cube.ply --view 0 0 1 --size 160 picture top.png");
    let file = fs::read(here.join("top.png")).unwrap();
    assert_eq!(file[..8], *b"\x89PNG\r\n\x1a\n");
    let pixels = pixels(&file, 160);
    assert_eq!(pixels.len(), 160 * 160);
    assert_eq!(pixels[0], [255; 3]);
    let [red, green, blue] = pixels[80 * 160 + 80];
    assert!(red == green && green == blue && red > 100, "the top of the cube is grey");
}

#[test]
fn the_same_words_give_the_same_files() {
    let here = folder("same");
    for name in ["a", "b"] {
        does(&here, &format!("{SHELL} draw 10 coarsen 2 write {name}.ply picture {name}.png picture {name}.svg"));
    }
    for ending in ["ply", "png", "svg"] {
        let bytes = |name: &str| fs::read(here.join(format!("{name}.{ending}"))).unwrap();
        assert!(bytes("a") == bytes("b"), "{ending}");
    }
}

#[test]
fn a_large_sheet_goes_through() {
    let out = prints(&format!("--quiet {SHELL} draw 128 coarsen regularize subdivide display"));
    assert!(out.ends_with("bad points         0\n"));
}
