//! What kind of file some bytes are, to say so where another kind was wanted.

use crate::mesh::Mesh;
use crate::stl;

/// The kind of file that these bytes look like, in words.
pub fn kind_of(bytes: &[u8]) -> &'static str {
    let start = bytes.trim_ascii_start();
    let starts = |word: &str| {
        start.len() >= word.len() && start[..word.len()].eq_ignore_ascii_case(word.as_bytes())
    };
    match STARTS.iter().find(|(word, _)| starts(word)) {
        _ if bytes.is_empty() => "an empty file",
        _ if stl::is_whole_binary(bytes) => "an STL file, a part's surface",
        Some((_, kind)) => kind,
        None if Mesh::from_bytes(bytes).is_ok() => "a mesh file of this tool",
        None if std::str::from_utf8(bytes).is_ok_and(is_text) => "a text file",
        None => "none of the kinds that this tool knows",
    }
}

fn is_text(text: &str) -> bool {
    !text.contains(|letter: char| letter.is_control() && !letter.is_ascii_whitespace())
}

/// How files of a kind start.
const STARTS: [(&str, &str); 12] = [
    ("solid", "a text STL file, a part's surface"),
    ("MeshVersionFormatted", "a Medit mesh file, which has only its name in common with ours"),
    ("# vtk DataFile", "a legacy VTK file"),
    ("<?xml", "an XML file, as newer VTK files are"),
    ("<VTKFile", "a VTK XML file"),
    ("$MeshFormat", "a Gmsh file"),
    ("ply", "a PLY file"),
    ("ISO-10303-21", "a STEP file"),
    ("PK\u{3}\u{4}", "a zip archive, as 3MF files are"),
    ("OFF", "an OFF file"),
    ("\u{1f}", "a compressed file"),
    ("{", "a JSON file"),
];

/// Why a VTK file is not read though it is one: how it departs from the layout of ours.
pub fn foreign_vtk(bytes: &[u8]) -> Option<String> {
    let mut lines = bytes.split(|byte| *byte == b'\n').map(<[u8]>::trim_ascii_end);
    let (first, coding) = (lines.next()?, lines.nth(1)?);
    let version = std::str::from_utf8(first.strip_prefix(b"# vtk DataFile Version ")?).ok()?;
    match (version, coding) {
        ("3.0", b"BINARY") => None,
        ("3.0", coding) => Some(format!("its data are {}, ours BINARY", coding.escape_ascii())),
        (version, _) => Some(format!("it is of version {}, ours of 3.0", version.escape_default())),
    }
}

#[cfg(test)]
mod tests {
    use super::*;

    #[test]
    fn files_are_known_by_what_they_hold() {
        let facet = [[[0.0; 3], [1.0, 0.0, 0.0], [0.0, 1.0, 0.0]]];
        let mesh = Mesh { points: vec![[0.0; 3]; 4], cells: vec![[0, 1, 2, 3]] };
        for (bytes, kind) in [
            (&b""[..], "an empty file"),
            (&stl::to_bytes(&facet), "an STL file"),
            (b"\n Solid x", "a text STL file"),
            (b"MeshVersionFormatted 2\nDimension 3", "a Medit mesh file"),
            (b"hello\n", "a text file"),
            (&mesh.to_bytes().unwrap(), "a mesh file of this tool"),
            (&mesh.to_vtk().unwrap(), "a legacy VTK file"),
            (b"\xff\x00\x01", "none of the kinds"),
        ] {
            assert!(kind_of(bytes).starts_with(kind), "{}", kind_of(bytes));
        }
    }

    #[test]
    fn a_vtk_file_saved_by_another_program_is_told() {
        let told = |text: &str| foreign_vtk(text.as_bytes()).unwrap_or_default();
        assert!(told("# vtk DataFile Version 5.1\nvtk output\nBINARY\n").contains("version 5.1"));
        assert!(told("# vtk DataFile Version 3.0\nx\nASCII\n").contains("ASCII"));
        assert_eq!(told("# vtk DataFile Version 3.0\nx\nBINARY\n"), "");
    }
}
