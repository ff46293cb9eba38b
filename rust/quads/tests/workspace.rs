//! One workspace for many calls: each call answers as if it had one of its own.
mod common;
use common::{bowl, cube, shell, unit_box};
use quads::{Band, Job, Sheet, Workspace};

/// The sheet after a clean-up in a workspace, which is that of a clean-up in new ones.
fn cleaned(workspace: &mut Workspace, sheet: &Sheet, band: &Band) -> Sheet {
    let (mut kept, mut fresh) = (sheet.clone(), sheet.clone());
    assert_eq!(workspace.coarsen(&mut kept, band, 3), fresh.coarsen(band, 3));
    assert_eq!(workspace.regularize(&mut kept, band, 3), fresh.regularize(band, 3));
    assert_eq!(workspace.improve_layout(&mut kept, band, 2), fresh.improve_layout(band, 2));
    assert_eq!(kept, fresh);
    assert_eq!(workspace.quality(&kept, band), fresh.quality(band));
    assert_eq!(workspace.corners_per_point(&kept, band), fresh.corners_per_point(band));
    assert_eq!(workspace.page(&kept, band), fresh.page(band));
    assert_put_away(workspace, &Job::new(band, kept.clone()));
    kept
}

/// Asserts that a job is saved and opened in a workspace as in new ones.
fn assert_put_away(workspace: &mut Workspace, job: &Job) {
    let file = workspace.save(job).unwrap();
    assert_eq!(job.save().as_ref(), Ok(&file));
    assert_eq!((workspace.open(&file).as_ref(), Job::open(&file).as_ref()), (Ok(job), Ok(job)));
}

#[test]
fn large_and_small_calls_take_turns() {
    let mut workspace = Workspace::new();
    for (band, cells) in [(bowl(), 12), (shell(), 6), (bowl(), 16), (shell(), 10), (bowl(), 6)] {
        let sheet = workspace.extract_candidate(&band, cells).unwrap();
        assert_eq!(Ok(&sheet), Sheet::extract_candidate(&band, cells).as_ref());
        let sheet = cleaned(&mut workspace, &sheet, &band);
        assert_eq!(workspace.refine(&sheet), sheet.refine());
        assert_eq!(workspace.subdivide(&sheet, &band), sheet.subdivide(&band));
        assert_eq!(workspace.boundary_rows(&cube(), &unit_box()), cube().boundary_rows(&unit_box()));
    }
}

#[test]
fn a_refusal_leaves_it_fit_for_the_next_call() {
    let (mut workspace, mut open) = (Workspace::new(), cube());
    open.quads.pop();
    open.labels.pop();
    for _ in 0..2 {
        assert_eq!(workspace.subdivide(&open, &unit_box()), open.subdivide(&unit_box()));
        assert!(workspace.subdivide(&open, &unit_box()).is_err());
        assert!(workspace.corners_per_point(&Sheet::default(), &unit_box()).is_err());
        assert_eq!(workspace.corners_per_point(&open, &unit_box()), open.corners_per_point(&unit_box()));
        assert!(workspace.page(&Sheet::default(), &unit_box()).is_err());
        assert_eq!(workspace.page(&open, &unit_box()), open.page(&unit_box()));
        assert_eq!(workspace.open(&[28; 92]), Job::open(&[28; 92]));
        assert!(workspace.open(&[28; 92]).is_err());
        assert_put_away(&mut workspace, &Job::new(&unit_box(), cube()));
        assert_eq!(workspace.extract_candidate(&shell(), 3), Sheet::extract_candidate(&shell(), 3));
        assert_eq!(workspace.subdivide(&cube(), &unit_box()), cube().subdivide(&unit_box()));
    }
}

#[test]
fn it_grows_and_does_not_shrink() {
    let mut workspace = Workspace::new();
    assert_eq!(format!("{workspace:?}"), "Workspace { wholes: 0, floats: 0 }");
    let finer = workspace.refine(&cube()).unwrap();
    assert_eq!(format!("{workspace:?}"), "Workspace { wholes: 896, floats: 224 }");
    workspace.refine(&finer).unwrap();
    workspace.refine(&cube()).unwrap();
    assert_eq!(format!("{workspace:?}"), "Workspace { wholes: 3200, floats: 800 }");
}
