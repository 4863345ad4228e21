//! The short comparison, as the gate runs it. It wants the library: `tools/archive`.

use oracle::steps::{self, Sizes};

/// Each function, the least number of cases that it must be put to, and the numbers that it must
/// answer at least once, and no others.
const FUNCTIONS: [(&str, u64, &[u32]); 15] = [
    ("plan", 100_000, &[0, 1, 2, 3, 4]),
    ("refine", 700, &[0, 1, 2, 3, 4, 5, 6, 9]),
    ("grid", 600, &[0, 1, 2, 3, 4, 5, 6, 7, 9]),
    ("representatives", 4_000, &[0, 4, 5, 6, 8, 9]),
    ("keep_cover", 4_000, &[0, 1, 4, 5, 6, 8, 9, 10]),
    ("keep_crust", 4_000, &[0, 1, 4, 5, 6, 8, 9, 10]),
    ("marks", 4_000, &[0, 1, 4, 5, 6, 8, 9]),
    ("add_coverage", 40_000, &[0, 4, 5, 6, 8, 16]),
    ("components", 4_000, &[0, 4, 5, 8, 9]),
    ("face_components", 4_000, &[0, 4, 5, 8, 9, 17]),
    ("one_piece", 4_000, &[0, 4, 5, 8, 17]),
    ("write_mesh", 400, &[0, 4, 5, 8, 9]),
    ("read_mesh", 80_000, &[0, 4, 8, 9, 11, 12, 13]),
    ("write_vtk", 400, &[0, 4, 5, 8, 9]),
    ("read_vtk", 250_000, &[0, 4, 8, 9, 11, 12, 13, 14, 15]),
];

#[test]
fn the_library_answers_as_the_rust() {
    let report = steps::run(&steps::names(), 1, &Sizes::SHORT);
    print!("{report}");
    assert_eq!(report.differences(), 0, "\n{report}");
    for (function, cases, numbers) in FUNCTIONS {
        assert!(
            report.cases(function) >= cases,
            "{function} was skipped:\n{report}"
        );
        assert_eq!(report.numbers(function), numbers, "{function}:\n{report}");
    }
}
