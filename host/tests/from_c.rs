//! The header against the archive: a C program that takes every step gives the answers that Rust gets.

use sporeferry::{Bounds, Plan};
use std::path::PathBuf;
use std::process::Command;

fn from_root(path: &str) -> PathBuf {
    PathBuf::from(env!("CARGO_MANIFEST_DIR")).join("..").join(path)
}

/// Compiles and runs the example; the lines it prints.
fn run_example() -> Vec<String> {
    let program = std::env::temp_dir().join(format!("sporeferry-all-steps-{}", std::process::id()));
    let compiled = Command::new("cc")
        .args(["-std=c99", "-Wall", "-Wextra", "-Werror", "-pedantic", "-I"])
        .arg(from_root("include"))
        .arg(from_root("examples/all_steps.c"))
        .arg(env!("SPOREFERRY_ARCHIVE"))
        .arg("-o")
        .arg(&program)
        .output()
        .expect("cc is needed to link");
    let complaint = String::from_utf8_lossy(&compiled.stderr).into_owned();
    assert!(compiled.status.success(), "{complaint}");
    let run = Command::new(&program).output();
    let _ = std::fs::remove_file(&program);
    let run = run.unwrap();
    assert!(run.status.success());
    let text = String::from_utf8(run.stdout).unwrap();
    text.lines().map(String::from).collect()
}

#[test]
fn every_step_answers_c_as_it_answers_rust() {
    let lines = run_example();
    let values = |step: &str| -> Vec<u64> {
        let line = lines.iter().find(|line| line.split_whitespace().next() == Some(step));
        let numbers = line.unwrap().split_whitespace().skip(2);
        numbers.map(|word| word.parse().unwrap()).collect()
    };
    let bounds = Bounds { min: [0.0; 3], max: [4.0; 3] };
    let plan = Plan::new(bounds, 1.0, 1).unwrap();
    let planned = "plan            10 x 10 x 10 roots from -3, unit 0.25, 1000 octants";
    assert_eq!(lines[0], planned);
    assert_eq!((plan.dims(), plan.octants()), ([10; 3], 1000));

    let crossed = |octant: [u32; 3]| {
        let touches = octant.iter().all(|n| (2..=7).contains(n));
        touches && octant.iter().any(|n| [2, 3, 6, 7].contains(n))
    };
    let places = (0..1000).map(|n| [n % 10, n / 10 % 10, n / 100]);
    let crossing: Vec<u8> = places.map(|octant| u8::from(crossed(octant))).collect();
    let refined = plan.refine(&crossing).unwrap();
    assert_eq!(values("refine"), [refined.ones, 0, 0]);
    let grid = plan.grid(&refined.split).unwrap();
    let (cells, points) = (grid.cells.len() as u64, grid.points.len() as u64);
    assert_eq!(values("grid"), [cells, points, 0]);

    let (kept, crust) = (values("keep_cover"), values("keep_crust"));
    assert_eq!(values("representatives"), [2, 0, 0]);
    assert!(crust[0] < kept[0] && crust[1] < kept[1] && kept[1] < cells && kept[2] == 0);
    assert_eq!(values("marks"), [kept[1], kept[2], 0]);
    let covered = values("add_coverage");
    assert!((covered[0], covered[2]) == (cells, 6 * 40 * 40 * 40) && covered[1] < covered[2]);
    for step in ["components", "face_components", "one_piece"] {
        assert_eq!(values(step), [1, 0, 0], "{step}");
    }
    assert_eq!(values("write_mesh"), [12 + 12 * kept[0] + 20 * kept[1], 0, 0]);
    assert_eq!(values("read_mesh"), [kept[0], kept[1], 0]);
    assert_eq!(values("read_vtk"), [kept[0], kept[1], 0]);
    assert!(lines.last().unwrap().ends_with("the same mesh"));
}

#[test]
fn the_archive_asks_c_for_memset_alone() {
    let listed = Command::new("nm").arg("-u").arg(env!("SPOREFERRY_ARCHIVE")).output();
    let listed = listed.expect("nm comes with cc");
    assert!(listed.status.success());
    let text = String::from_utf8(listed.stdout).unwrap();
    let asked: Vec<&str> = text.lines().filter_map(|line| line.trim().strip_prefix("U ")).collect();
    assert_eq!(asked, ["memset"]);
}
