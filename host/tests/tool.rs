//! The command-line tool as a user meets it: status, words, and what is left in the folder.

mod folder;
mod running;
mod shapes;

use folder::Folder;
use running::{does, fails, folder_with, run, run_command, told, TOOL};
use sporeferry::json::Json;
use sporeferry::{stl, Mesh};
use std::fs::{self, Permissions};
use std::os::unix::fs::{symlink, PermissionsExt};
use std::os::unix::process::ExitStatusExt;
use std::process::Command;

fn ball() -> Vec<u8> {
    stl::to_bytes(&shapes::sphere(10.0))
}

#[test]
fn a_part_is_covered_and_looked_at() {
    let folder = folder_with("covered", &[("ball.stl", &ball())]);
    let out = does(&folder, "cover ball.stl --cell=4 --levels 2 -o ball.mesh");
    assert_eq!((told(&out, "dropped"), told(&out, "pieces")), ("0", "1"));
    assert_eq!(told(&out, "shells"), "1: 1 outward");
    assert!(told(&out, "volume").contains("% more than the part's"), "{out}");
    assert!(told(&out, "volume").ends_with("a jagged hull, not fitted to the surface"), "{out}");
    assert!(told(&out, "covered").contains(" sixths of a cubic unit, "), "{out}");
    assert_eq!(folder.names(), ["ball.mesh", "ball.mesh.json", "ball.stl"]);
    let mesh = Mesh::from_bytes(&fs::read(folder.0.join("ball.mesh")).unwrap()).unwrap();
    assert_eq!(mesh.one_piece(), Ok(true));

    let out = does(&folder, "info ball.mesh");
    assert_eq!((told(&out, "reads"), told(&out, "pieces")), ("yes, as a mesh file", "1"));
    assert!(told(&out, "box").starts_with("x -1") && told(&out, "boundary").starts_with("closed"));
    assert!(told(&out, "angles").starts_with("between faces 45.0° to 120.0°"), "{out}");
    assert!(out.contains("about  60° ") && out.contains("about  90° "), "{out}");
    assert!(told(&out, "volume").contains(", of a cell "), "{out}");
    assert_eq!(told(&out, "evidence"), "ball.mesh.json agrees, and ball.stl too");
    let out = does(&folder, "cover ball.stl --cell 4 --crust -o ball.mesh");
    assert!(!out.contains("groups") && !out.contains("% more"));
    assert_eq!(does(&folder, "cover ball.stl --cell 4 --quiet -o ball.mesh"), "");
}

#[test]
fn coverage_is_told_part_by_part_and_in_all() {
    let folder = folder_with("coverage", &[("a.stl", &ball()), ("b.stl", &ball())]);
    let cover = does(&folder, "cover a.stl --cell 4 --levels 1 -o a.mesh --json");
    let names = folder.names();
    let out = does(&folder, "coverage a.stl b.stl --cell 4 --levels 1 --json");
    assert_eq!(folder.names(), names);
    let (own, all) = (Json::parse(&cover).unwrap(), Json::parse(&out).unwrap());
    let count =
        |json: &Json, path: &[&str]| -> u64 { json.at(path).unwrap().to_string().parse().unwrap() };
    for name in ["cells", "kept", "dropped", "sixfold_kept", "sixfold_all"] {
        let once = count(&own, &["mesh", "coverage", name]);
        assert_eq!(count(&all, &["total", name]), 2 * once, "{name}: {out}");
    }
    assert_eq!(count(&own, &["mesh", "coverage", "kept"]), count(&own, &["mesh", "cells"]));
    let table = does(&folder, "coverage a.stl b.stl --cell 4 --levels 1");
    assert_eq!(told(&table, "a.stl"), told(&table, "b.stl"));
    assert!(told(&table, "total").ends_with('%'), "{table}");
    fails(&folder, "coverage a.stl none.stl --cell 4", 1, "none.stl: ");
    fails(&folder, "coverage a.stl --cell 1 --levels 5", 1, "no cell of use fits 5 levels");
    fails(&folder, "coverage --cell 4", 2, "sporeferry --help tells how");
}

#[test]
fn a_part_that_cannot_be_covered_leaves_nothing_behind() {
    let (whole, open) = (ball(), stl::to_bytes(&shapes::sphere(10.0)[1..]));
    let text = b"solid a\nfacet normal 0 0 1\nouter loop\nvertex 0 0\n";
    let folder = folder_with(
        "refused",
        &[
            ("ball.stl", &whole),
            ("open.stl", &open),
            ("short.stl", &whole[..5000]),
            ("text.stl", text),
            ("old.mesh", b"kept as it was"),
            ("locked.mesh", b"kept as it was"),
        ],
    );
    let locked = folder.0.join("locked.mesh");
    fs::set_permissions(&locked, Permissions::from_mode(0o444)).unwrap();
    symlink("nowhere", folder.0.join("dangling")).unwrap();
    for (words, holds) in [
        (
            "ball.stl --cell 1e38 -o old.mesh",
            "refusal 4 of plan: with this cell the box runs past the 32-bit floats along x; ",
        ),
        ("open.stl --cell 4 -o new.mesh", "it is open at 3 edges, around 1 hole: for one from ("),
        ("open.stl --cell 4 -o new.mesh", "join near corners with --weld EPS, or take its --crust"),
        ("short.stl --cell 4 -o new.mesh", "nor a whole binary one: "),
        ("short.stl --cell 4 -o new.mesh", "this one has 5000"),
        ("text.stl --cell 4 -o new.mesh", "line 4: expected three numbers"),
        ("missing.stl --cell 4 -o new.mesh", "missing.stl: "),
        (". --cell 4 -o new.mesh", ".: "),
        ("ball.stl --cell 4 -o missing/new.mesh", "missing/new.mesh: "),
        ("ball.stl --cell 4 -o .", ".: it is there and is no ordinary file"),
        ("ball.stl --cell 4 -o /dev/null", "/dev/null: it is there and is no ordinary file"),
        ("ball.stl --cell 4 -o ./ball.stl", "ball.stl: it is the file to be read"),
        ("ball.stl --cell 4 --force -o ./ball.stl", "ball.stl: it is the file to be read"),
        ("ball.stl --cell 4 -o /proc/new.mesh", "/proc/new.mesh: "),
        ("ball.stl --cell 4 -o locked.mesh", "may not be written (--force replaces it)"),
        ("ball.stl --cell 4 -o dangling", "dangling: it is a link to a file that is not there"),
    ] {
        fails(&folder, &format!("cover {words}"), 1, holds);
    }
    for name in ["old.mesh", "locked.mesh"] {
        assert_eq!(fs::read(folder.0.join(name)).unwrap(), b"kept as it was");
    }
    does(&folder, "cover ball.stl --cell 4 --force -o locked.mesh");
    assert_eq!(fs::metadata(&locked).unwrap().permissions().mode() & 0o777, 0o444);
}

#[test]
fn what_a_plan_takes_is_advised() {
    let folder = folder_with("advised", &[("ball.stl", &ball())]);
    for (words, holds) in [
        (
            "--cell 0.01",
            "too long along x: about 4009 half cells of 0.005, at most 128; a cell of ",
        ),
        (
            "--cell 0.1 --levels 1",
            "too long along x: about 206 roots of 0.1, at most 64; a cell of ",
        ),
        (
            "--cell 1 --levels 5",
            "17576 roots make about 82273256 octants, at most 1048576; no cell",
        ),
        ("--cell 1 --levels 5", "no cell of use fits 5 levels; the finest unit, 0.0"),
        ("--cell 1e-20", "\"sporeferry advise ball.stl\" lists what fits"),
    ] {
        fails(&folder, &format!("cover ball.stl {words} -o new.mesh"), 1, holds);
    }
    let out = does(&folder, "advise ball.stl");
    assert_eq!(told(&out, "5"), "no cell of use is accepted");
    assert!(
        out.contains("more levels are not finer past 2 or 3")
            && out.contains("5 levels take no part")
    );
    for levels in ["0", "4"] {
        let fits = told(&out, levels);
        let cell = fits.split_whitespace().next().unwrap();
        let words = format!("cover ball.stl --crust --levels {levels} --cell {cell} -o new.mesh");
        let (code, covered, error) = run(&folder, &words);
        assert_eq!(code, 0, "{error}");
        let counted = told(&covered, "cells").split(':').next().unwrap();
        assert!(fits.contains(counted), "{counted} cells are not in {fits}");
    }
}

#[test]
fn a_part_far_from_the_origin_is_told_and_moved() {
    let far: Vec<stl::Facet> =
        shapes::sphere(10.0).iter().map(|facet| facet.map(|[x, y, z]| [x, y + 4.5e6, z])).collect();
    let folder = folder_with("far", &[("far.stl", &stl::to_bytes(&far))]);
    let words = "cover far.stl --cell 2 --levels 2 -o new.mesh";
    fails(&folder, words, 1, "32-bit floats are 0.5 apart, and the grid's unit is 0.25");
    fails(&folder, words, 1, "near y = 4500016");
    fails(&folder, words, 1, "--move-to-origin");
    fails(&folder, words, 1, "--allow-dropped goes on, without the cells that are flat");
    let (code, out, error) = run(&folder, &format!("{words} --allow-dropped"));
    assert!(code == 0 && told(&out, "dropped") != "0", "{out}");
    let dropped = format!("sporeferry: warning: {} flat cells are left", told(&out, "dropped"));
    assert!(error.starts_with(&dropped), "{error}");
    let (code, out, error) = run(&folder, "coverage far.stl --cell 2 --levels 2 --allow-dropped");
    assert!(code == 0 && out.contains("total"), "{out}");
    assert!(error.starts_with(&dropped), "{error}");
    let out = does(&folder, &format!("{words} --move-to-origin"));
    assert_eq!((told(&out, "moved"), told(&out, "pieces")), ("by 10, -4499990, 10", "1"));
    let evidence = fs::read_to_string(folder.0.join("new.mesh.json")).unwrap();
    let evidence = Json::parse(&evidence).unwrap();
    let moved = Json::list([10.0f32, -4499990.0, 10.0]);
    assert_eq!(evidence.at(&["part", "moved_by"]), Some(&moved));
    let out = does(&folder, "info new.mesh");
    assert!(told(&out, "box").starts_with("x -0"), "{out}");
}

#[test]
fn the_parts_volume_is_that_of_what_counts_as_inside() {
    let ball = shapes::sphere(10.0);
    let small = shapes::sphere(5.0);
    let turned = |facets: &[stl::Facet]| -> Vec<stl::Facet> {
        facets.iter().map(|[a, b, c]| [*a, *c, *b]).collect()
    };
    let beside = |facets: &[stl::Facet], by: f32| -> Vec<stl::Facet> {
        facets.iter().map(|facet| facet.map(|[x, y, z]| [x + by, y, z])).collect()
    };
    let (one, less) = ("part's 4164", "part's 3643");
    for (name, facets, shells, volume) in [
        ("plain", ball.clone(), "1: 1 outward", one),
        ("turned", turned(&ball), "1: 1 inside out", one),
        ("doubled", [&ball[..], &ball].concat(), "1: 1 doubled", one),
        ("hollow", [&ball[..], &turned(&small)].concat(), "2: 1 outward, 1 cavity", less),
        ("within", [&ball[..], &small].concat(), "2: 1 outward, 1 within", one),
        (
            "apart",
            [&ball[..], &turned(&beside(&ball, 30.0))].concat(),
            "2: 1 outward, 1 inside",
            "part's 8328",
        ),
        (
            "across",
            [&ball[..], &beside(&ball, 3.0)].concat(),
            "2: 2 outward",
            "not told: shells overlap",
        ),
    ] {
        let folder = folder_with(name, &[("a.stl", &stl::to_bytes(&facets))]);
        let out = does(&folder, "cover a.stl --cell 4 --levels 1 -o a.mesh");
        assert!(told(&out, "shells").starts_with(shells), "{name}: {out}");
        assert!(told(&out, "volume").contains(volume), "{name}: {out}");
    }
}

#[test]
fn cracks_are_welded_when_asked() {
    let mut ball = shapes::sphere(10.0);
    for facet in &mut ball[..7] {
        *facet = facet.map(|corner| corner.map(|x| x + 1e-4));
    }
    let folder = folder_with("weld", &[("crack.stl", &stl::to_bytes(&ball))]);
    fails(&folder, "cover crack.stl --cell 4 -o a.mesh", 1, "--weld EPS");
    fails(&folder, "cover crack.stl --cell 4 --weld 1e-6 -o a.mesh", 1, "--weld EPS");
    let out = does(&folder, "cover crack.stl --cell 4 --weld 0.001 -o a.mesh");
    assert!(told(&out, "welded").ends_with("0 triangles vanished"), "{out}");
    assert_eq!((told(&out, "shells"), told(&out, "pieces")), ("1: 1 outward", "1"));
}

#[test]
fn the_evidence_names_its_mesh_and_its_part() {
    let folder = folder_with("evidence", &[("ball.stl", &ball())]);
    let printed = does(&folder, "cover ball.stl --cell 4 --json -o ball.mesh");
    let evidence = fs::read_to_string(folder.0.join("ball.mesh.json")).unwrap();
    assert_eq!(printed, evidence);
    let facts = Json::parse(&evidence).unwrap();
    for path in [&["part", "sha256"][..], &["mesh", "sha256"], &["tool"]] {
        assert!(facts.at(path).and_then(Json::text).is_some(), "{path:?}");
    }
    let counts = [
        &["mesh", "cells"][..],
        &["mesh", "pieces"],
        &["mesh", "pieces_by_vertices"],
        &["mesh", "coverage", "share"],
        &["plan", "dims"],
        &["options", "cell"],
        &["part", "shells"],
    ];
    assert!(counts.iter().all(|path| facts.at(path).is_some()), "{evidence}");
    let told = Json::parse(&does(&folder, "info ball.mesh --json")).unwrap();
    assert_eq!(told.at(&["cells"]), facts.at(&["mesh", "cells"]));
    assert_eq!(told.at(&["evidence_agrees"]), Some(&Json::Bool(true)));
    assert_eq!(told.at(&["boundary", "closed"]), Some(&Json::Bool(true)));
    assert!(told.at(&["quality", "histogram"]).is_some());
    for name in ["pieces", "pieces_by_vertices"] {
        assert_eq!(told.at(&[name]), facts.at(&["mesh", name]));
    }
    assert!(Json::parse(&does(&folder, "advise ball.stl --json")).is_ok());

    fs::write(folder.0.join("ball.stl"), b"another").unwrap();
    let (code, out, error) = run(&folder, "info ball.mesh");
    assert!(code == 1 && out.contains("reads"), "{out}");
    assert!(error.contains("ball.stl is not the part it came from"), "{error}");
    let other = Mesh { points: vec![[0.0; 3]; 4], cells: vec![[0, 1, 2, 3]] };
    fs::write(folder.0.join("ball.mesh"), other.to_bytes().unwrap()).unwrap();
    let (code, _, error) = run(&folder, "info ball.mesh");
    assert!(code == 1 && error.contains("is of another mesh: the checksums differ"), "{error}");
    fs::write(folder.0.join("ball.mesh.json"), b"{").unwrap();
    assert!(run(&folder, "info ball.mesh").2.contains("ball.mesh.json is no JSON"));
}

#[test]
fn a_file_that_does_not_read_is_explained() {
    let mesh = Mesh { points: vec![[0.0; 3]; 5], cells: vec![[0, 1, 2, 3], [1, 2, 3, 4]] };
    let file = mesh.to_bytes().unwrap();
    let changed = |place: usize| {
        let mut copy = file.clone();
        copy[place] ^= 0x40;
        copy
    };
    let folder = folder_with(
        "info",
        &[
            ("cut.mesh", &file[..40]),
            ("long.mesh", &[&file[..], b"\xff"].concat()),
            ("point.mesh", &changed(4 + 60 + 4)),
            ("pieces.mesh", &changed(file.len() - 4)),
        ],
    );
    for (name, holds) in [
        ("cut.mesh", "cut.mesh: refusal 11 of read mesh: the file ends inside"),
        ("long.mesh", "refusal 12 of read mesh: the file has bytes after"),
        ("point.mesh", "refusal 8 of read mesh: a cell names a point"),
        ("pieces.mesh", "refusal 13 of read mesh: the component numbers"),
        ("missing.mesh", "missing.mesh: "),
    ] {
        fails(&folder, &format!("info {name}"), 1, holds);
    }
}

#[test]
fn files_of_another_kind_are_named() {
    let mesh = Mesh { points: vec![[0.0; 3]; 4], cells: vec![[0, 1, 2, 3]] };
    let (file, vtk) = (mesh.to_bytes().unwrap(), mesh.to_vtk().unwrap());
    let newer = String::from_utf8_lossy(&vtk).replace("Version 3.0", "Version 5.1");
    let folder = folder_with(
        "kinds",
        &[
            ("ball.stl", &ball()),
            ("text.txt", b"dear colleague,\n"),
            ("empty", b""),
            ("medit.mesh", b"MeshVersionFormatted 2\nDimension 3\nVertices\n0\nEnd\n"),
            ("a.mesh", &file),
            ("a.vtk", &vtk),
            ("newer.vtk", newer.as_bytes()),
            ("ascii.vtk", b"# vtk DataFile Version 3.0\nx\nASCII\nDATASET UNSTRUCTURED_GRID\n"),
        ],
    );
    for (words, holds) in [
        ("info ball.stl", "no mesh file of this tool, but an STL file, a part's surface"),
        ("info empty", "an empty file"),
        ("info medit.mesh", "a Medit mesh file"),
        ("info newer.vtk", "a VTK file that this tool did not write, it is of version 5.1"),
        ("info ascii.vtk", "its data are ASCII, ours BINARY"),
        ("mesh ascii.vtk -o b.mesh", "a VTK file that this tool did not write"),
        ("mesh ball.stl -o b.mesh", "no VTK file of this tool, but an STL file"),
        ("vtk medit.mesh -o b.vtk", "a Medit mesh file"),
        ("cover text.txt --cell 1 -o b.mesh", "not an STL file; it is a text file"),
        ("cover empty --cell 1 -o b.mesh", "not an STL file; it is an empty file"),
        ("cover a.mesh --cell 1 -o b.mesh", "it is a mesh file of this tool"),
        ("cover a.vtk --cell 1 -o b.mesh", "it is a legacy VTK file"),
        ("cover medit.mesh --cell 1 -o b.mesh", "it is a Medit mesh file"),
        ("advise a.vtk", "it is a legacy VTK file"),
    ] {
        fails(&folder, words, 1, holds);
    }
}

#[test]
fn pieces_are_told_by_faces() {
    let cells = [
        vec![[0, 1, 2, 3], [3, 4, 5, 6]],
        vec![[0, 1, 2, 3], [2, 3, 4, 1]],
        vec![[0, 1, 2, 3], [3, 4, 4, 6]],
    ];
    let told_of = [
        "2 by faces, joined only at a vertex or an edge: no load passes; 1 by vertices",
        "1",
        "1 by vertices; none are told by faces: a cell names one point twice",
    ];
    for (cells, words) in cells.into_iter().zip(told_of) {
        let mesh = Mesh { points: vec![[0.5; 3]; 7], cells };
        let folder = folder_with("pieces", &[("a.mesh", &mesh.to_bytes().unwrap()[..])]);
        assert_eq!(told(&does(&folder, "info a.mesh"), "pieces"), words);
    }
}

#[test]
fn a_mesh_goes_to_a_viewer_and_back() {
    let mesh =
        Mesh { points: vec![[0.5, f32::NAN, -1.0]; 9], cells: vec![[5, 6, 7, 8], [0, 1, 2, 3]] };
    let file = mesh.to_bytes().unwrap();
    let folder = folder_with("viewer", &[("a.mesh", &file[..]), ("bad.vtk", b"# vtk DataFile\n")]);
    assert_eq!(told(&does(&folder, "vtk a.mesh -o a.vtk"), "cells"), "2");
    does(&folder, "mesh a.vtk -o b.mesh");
    assert_eq!(fs::read(folder.0.join("b.mesh")).unwrap(), file);
    let out = does(&folder, "info a.vtk");
    assert_eq!((told(&out, "reads"), told(&out, "pieces")), ("yes, as a VTK file", "2"));

    for (words, holds) in [
        ("mesh bad.vtk -o b.mesh", "bad.vtk: refusal 14 of read vtk: the file departs"),
        ("info bad.vtk", "bad.vtk: refusal 14 of read vtk: the file departs"),
        ("mesh a.mesh -o c.mesh", "a.mesh: it is no VTK file"),
        ("vtk a.vtk -o c.vtk", "a.vtk: it is a VTK file already"),
        ("vtk a.mesh -o ./a.mesh", "it is the file to be read"),
        ("vtk missing.mesh -o c.vtk", "missing.mesh: "),
    ] {
        fails(&folder, words, 1, holds);
    }
}

#[test]
fn words_are_understood_or_not() {
    let folder = folder_with("words", &[("a.stl", &ball())]);
    let help = does(&folder, "--help");
    assert!(help.contains("sporeferry cover PART.stl --cell C [--levels L] [--crust] -o PART.mesh"));
    assert!(help.contains("a jagged hull around the part"));
    assert!(does(&folder, "--version").starts_with("sporeferry "));
    assert!(does(&folder, "help advise").starts_with("  sporeferry advise PART.stl"));
    for words in [
        "",
        "smooth a.mesh",
        "cover a.stl",
        "info",
        "cover a.stl --cell four -o a.mesh",
        "cover a.stl --cell -3 -o a.mesh",
        "cover a.stl --cell 0 -o a.mesh",
        "cover a.stl --cell 1 --levels 6 -o a.mesh",
        "cover a.stl --cell 1 --weld -1 -o a.mesh",
        "cover a.stl --cell 1 -o -",
    ] {
        fails(&folder, words, 2, "sporeferry --help tells how");
    }
    for (words, holds) in [
        (
            "cover a.stl --cell 1 -o -",
            "-o takes the name of a file, not -: a file is written whole",
        ),
        ("cover a.stl --cell 1 --levels 6 -o a.mesh", "--levels"),
        ("cover a.stl --cell four -o a.mesh", "--cell"),
    ] {
        fails(&folder, words, 2, holds);
    }
}

/// The page is one that `man` shows: each command and option is in it, and roff finds nothing to complain of.
#[test]
fn the_manual_page_is_the_help() {
    let folder = Folder::new("manual");
    let page = does(&folder, "help man");
    for word in
        [".TH SPOREFERRY 1", ".SH NAME", "sporeferry cover PART.stl", "\\-\\-allow\\-dropped"]
    {
        assert!(page.contains(word), "{word} is not in\n{page}");
    }
    assert!(!page.lines().any(|line| line.starts_with('\'')));
}

/// The shell lets the tool write 64 kilobytes to a file and no more: the write fails half way.
#[cfg(target_os = "linux")]
#[test]
fn a_file_that_fails_half_way_leaves_nothing_behind() {
    let folder = folder_with("half", &[("ball.stl", &ball()), ("old.mesh", b"kept as it was")]);
    for output in ["new.mesh", "old.mesh"] {
        let before = folder.names();
        let words = format!("exec {TOOL} cover ball.stl --cell 2 -o {output}");
        let limited = format!("trap '' XFSZ; ulimit -f 128; {words}");
        let (code, _, error) = run_command(&folder, Command::new("sh").args(["-c", &limited]));
        assert_eq!(code, 1, "{error}");
        assert!(error.starts_with(&format!("sporeferry: {output}: ")), "{error}");
        assert_eq!(error.lines().count(), 1, "{error}");
        assert_eq!(folder.names(), before);
    }
    assert_eq!(fs::read(folder.0.join("old.mesh")).unwrap(), b"kept as it was");
}

/// A signal as soon as a temporary file is seen: what is there afterwards is whole or not there.
#[test]
fn a_signal_leaves_no_temporary_file() {
    let folder = folder_with("signal", &[("ball.stl", &ball())]);
    let began = || folder.names().iter().any(|name| name.ends_with(".tmp"));
    let mut caught = 0;
    for signal in ["INT", "TERM", "HUP"].into_iter().cycle().take(12) {
        let mut tool = Command::new(TOOL);
        tool.args("cover ball.stl --cell 0.4 --quiet -o a.mesh".split_whitespace());
        let mut tool = tool.current_dir(&folder.0).spawn().unwrap();
        while tool.try_wait().unwrap().is_none() && !began() {}
        let process = tool.id().to_string();
        let _ = Command::new("/bin/kill").args(["-s", signal, &process]).output();
        let status = tool.wait().unwrap();
        caught += usize::from(status.signal().is_some());
        assert!(!began(), "{:?}", folder.names());
        if let Ok(found) = fs::read(folder.0.join("a.mesh")) {
            assert!(Mesh::from_bytes(&found).is_ok());
            assert!(folder.names().contains(&"a.mesh.json".to_string()));
        }
    }
    assert!(caught > 0);
}

#[cfg(target_os = "linux")]
#[test]
fn a_full_standard_output_is_told_as_that() {
    let folder = folder_with("full", &[("a.mesh", &[0; 12]), ("ball.stl", &ball())]);
    for (words, holds) in [
        ("info a.mesh", "sporeferry: standard output: "),
        (
            "cover ball.stl --cell 4 -o b.mesh",
            "b.mesh is written, but standard output did not take",
        ),
        ("vtk a.mesh -o a.vtk", "a.vtk is written, but standard output did not take"),
    ] {
        for sink in ["> /dev/full", "| true"] {
            let waiting = format!("set -o pipefail; {{ sleep 0.2; {TOOL} {words}; }} {sink}");
            let (code, _, error) =
                run_command(&folder, Command::new("bash").args(["-c", &waiting]));
            assert!(code == 1 && error.contains(holds), "{words} {sink}: {code} {error}");
        }
    }
    assert!(folder.names().contains(&"b.mesh".to_string()));
}
