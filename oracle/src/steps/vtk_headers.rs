//! VTK files whose headers are written otherwise: titles, digits, counts, blocks.

use crate::expected::mesh::Mesh;
use crate::expected::vtk::encode;

/// A file of four points and one cell.
fn plain() -> Vec<u8> {
    let points: Vec<u32> = (0..12).collect();
    encode(Mesh::new(&points, &[3, 0, 2, 1]))
}

fn replaced(file: &[u8], old: &[u8], new: &[u8]) -> Vec<u8> {
    let at = file
        .windows(old.len())
        .position(|part| part == old)
        .expect("the text stands in the file");
    [&file[..at], new, &file[at + old.len()..]].concat()
}

/// Titles up to one byte too long, with a carriage return, and one without end.
fn titles(file: &[u8]) -> Vec<Vec<u8>> {
    let titled = |title: &[u8]| replaced(file, b"cover mesh\n", title);
    let mut files: Vec<Vec<u8>> = [0, 1, 254, 255, 256, 300]
        .map(|len| titled(&[vec![b't'; len], b"\n".to_vec()].concat()))
        .to_vec();
    files.push(titled(b"cover mesh\r\n"));
    files.push(titled(b"\0\xff\n"));
    files.push([b"# vtk DataFile Version 3.0\n".to_vec(), vec![b'x'; 255]].concat());
    files.push([b"# vtk DataFile Version 3.0\n".to_vec(), vec![b'x'; 256]].concat());
    files
}

/// Each count in other words.
fn counts(file: &[u8]) -> Vec<Vec<u8>> {
    const OTHER: [(&[u8], &[&str]); 4] = [
        (
            b"POINTS 4 ",
            &[
                "04",
                "",
                "-4",
                "+4",
                "4 ",
                "0",
                "3",
                "5",
                "00",
                "4000000000",
                "40000000000",
                "9999999999",
                "1e3",
            ],
        ),
        (
            b"CELLS 1 5\n",
            &[
                "1 05",
                "1 4",
                "1 6",
                "1 50",
                "01 5",
                "0 0",
                "2 10",
                "1999999999 9999999995",
                "2000000000 10000000000",
                "2000000000 1000000000",
                "9999999999 4999999999",
            ],
        ),
        (b"CELL_TYPES 1\n", &["01", "2", "10", "0", ""]),
        (b"CELL_DATA 1\n", &["01", "2", "10", "0", ""]),
    ];
    let mut files = Vec::new();
    for (line, values) in OTHER {
        let name = line.iter().position(|byte| *byte == b' ').unwrap() + 1;
        for value in values {
            let new = [&line[..name], value.as_bytes(), &line[line.len() - 1..]].concat();
            files.push(replaced(file, line, &new));
        }
    }
    files
}

/// Texts that other programs write.
fn texts(file: &[u8]) -> Vec<Vec<u8>> {
    [
        (&b"Version 3.0"[..], &b"Version 2.0"[..]),
        (b"BINARY\n", b"ASCII\n"),
        (b"BINARY\n", b"BINARY\r\n"),
        (b"float\n", b"double\n"),
        (b"int 1\n", b"int\n"),
        (b"component", b"Component"),
        (b"default\n", b"default\n\n"),
    ]
    .map(|(old, new)| replaced(file, old, new))
    .to_vec()
}

/// A cell not of type 10, a cell not led by a four, alone and with a point that is not there.
fn kinds(file: &[u8]) -> Vec<Vec<u8>> {
    let type_at = replaced(
        file,
        b"CELL_TYPES 1\n\0\0\0\x0a",
        b"CELL_TYPES 1\n\0\0\0\x0b",
    );
    let led = replaced(file, b"5\n\0\0\0\x04", b"5\n\0\0\0\x05");
    let missing = replaced(file, b"\x04\0\0\0\x03", b"\x04\0\0\0\x04");
    let both = replaced(&type_at, b"\x04\0\0\0\x03", b"\x04\0\0\0\x04");
    vec![type_at, led, missing, both]
}

pub fn files() -> Vec<Vec<u8>> {
    let plain = plain();
    [
        titles(&plain),
        counts(&plain),
        texts(&plain),
        kinds(&plain),
        vec![plain],
    ]
    .concat()
}
