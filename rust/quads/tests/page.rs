//! The page: the eight counts of the record, one to a line of 41 bytes.
mod common;
use common::{bowl, cube, joined, page_of, pillow, shell, unit_box};
use quads::{Band, Field, LIMIT, PAGE, Refusal, Sheet};

/// The page of a sheet that is not refused, as text.
fn page(sheet: &Sheet, band: &Band) -> String {
    String::from_utf8(sheet.page(band).unwrap().to_vec()).unwrap()
}

/// The cube after a change.
fn changed(change: impl FnOnce(&mut Sheet)) -> Sheet {
    let mut sheet = cube();
    change(&mut sheet);
    sheet
}

/// The cube without its last quad.
fn open() -> Sheet {
    changed(|sheet| {
        sheet.quads.pop();
        sheet.labels.pop();
    })
}

/// The cube with one of its quads twice.
fn thick() -> Sheet {
    changed(|sheet| {
        sheet.quads.push(sheet.quads[3]);
        sheet.labels.push(sheet.labels[3]);
    })
}

/// So many quads of the same four corners.
fn stack(quads: usize) -> Sheet {
    Sheet { quads: vec![[0, 1, 2, 3]; quads], labels: vec![6; quads], ..pillow() }
}

/// Asserts that the page of a sheet shows the counts of its record, eight lines of 41 bytes.
fn assert_shown(sheet: &Sheet, band: &Band) {
    let page = page(sheet, band);
    assert_eq!(page, page_of(&sheet.quality(band).unwrap()));
    assert_eq!((page.len(), page.lines().count()), (PAGE, 8));
    assert!(page.lines().all(|line| line.len() == 40));
}

#[test]
fn the_cube_has_six_quads_and_eight_points_of_three() {
    assert_eq!(
        page(&cube(), &unit_box()),
        "quads                                  6\n\
         irregular                              8\n\
         boundary                               0\n\
         nonmanifold                            0\n\
         orientation                            0\n\
         links                                  0\n\
         duplicates                             0\n\
         invalid                                0\n"
    );
}

#[test]
fn the_open_cube_shows_its_hole() {
    assert_eq!(
        page(&open(), &unit_box()),
        "quads                                  5\n\
         irregular                              8\n\
         boundary                               4\n\
         nonmanifold                            0\n\
         orientation                            0\n\
         links                                  4\n\
         duplicates                             0\n\
         invalid                                0\n"
    );
}

#[test]
fn it_shows_the_counts_of_quality() {
    let finer = cube().refine().unwrap();
    let sheets = [
        cube(),
        finer.refine().unwrap(),
        finer,
        cube().boundary_rows(&unit_box()).unwrap(),
        open(),
        thick(),
        changed(|sheet| sheet.quads[0].reverse()),
        changed(|sheet| sheet.labels.fill(0)),
        pillow(),
        joined(&pillow(), 0, &pillow(), 0),
        joined(&cube(), 7, &cube(), 0),
        Sheet { quads: vec![[0, 1, 2, 3]], labels: vec![6], ..pillow() },
    ];
    for sheet in sheets {
        assert_shown(&sheet, &unit_box());
    }
}

#[test]
fn it_shows_them_through_a_clean_up() {
    for band in [shell(), bowl()] {
        let mut sheet = Sheet::extract_candidate(&band, 12).unwrap();
        assert_shown(&sheet, &band);
        sheet.coarsen(&band, 4).unwrap();
        assert_shown(&sheet, &band);
        sheet.regularize(&band, 4).unwrap();
        assert_shown(&sheet, &band);
        assert_shown(&sheet.subdivide(&band).unwrap(), &band);
    }
}

#[test]
fn counts_of_every_width_stand_right() {
    for quads in [9, 10, 99, 100, 101, 1000, 12_345] {
        let sheet = stack(quads);
        assert_shown(&sheet, &unit_box());
        assert!(page(&sheet, &unit_box()).starts_with(&format!("quads                   {quads:>16}\nirregular ")));
    }
}

#[test]
fn it_is_refused_as_quality_is() {
    let flat = Band { field: Field::Plane { a: 0.0, b: 0.0, c: 0.0, d: 0.0 }, ..unit_box() };
    let cases = [
        (cube(), Band { lower: 2.0, ..unit_box() }, Refusal::Box),
        (Sheet::default(), unit_box(), Refusal::Bare),
        (changed(|sheet| sheet.labels.truncate(5)), unit_box(), Refusal::Bare),
        (changed(|sheet| sheet.labels[1] = 8), unit_box(), Refusal::Corner),
        (changed(|sheet| sheet.quads[2] = [0, 1, 1, 4]), unit_box(), Refusal::Corner),
        (changed(|sheet| sheet.points.push([0.5; 3])), unit_box(), Refusal::Clash),
        (changed(|sheet| sheet.labels[0] = 5), unit_box(), Refusal::Clash),
        (changed(|sheet| sheet.labels.fill(0)), flat, Refusal::Normal),
        (stack(LIMIT + 1), unit_box(), Refusal::Large),
    ];
    for (sheet, band, refusal) in cases {
        let refused = sheet.page(&band).unwrap_err();
        assert_eq!((refused.refusal(), Some(refused)), (refusal, sheet.quality(&band).err()));
    }
}
