//! VTK files that were cut or changed: the library's answer against a plain reading of the layout.

use sporeferry::Mesh;

/// A file read from the front. A step that finds no byte says 11, one that finds a wrong byte 14.
struct Front<'a>(&'a [u8]);

impl<'a> Front<'a> {
    fn byte(&mut self) -> Result<u8, u32> {
        let (first, rest) = self.0.split_first().ok_or(11u32)?;
        self.0 = rest;
        Ok(*first)
    }

    fn text(&mut self, expected: &str) -> Result<(), u32> {
        for wanted in expected.bytes() {
            if self.byte()? != wanted {
                return Err(14);
            }
        }
        Ok(())
    }

    fn title(&mut self) -> Result<(), u32> {
        for _ in 0..256 {
            if self.byte()? == b'\n' {
                return Ok(());
            }
        }
        Err(14)
    }

    /// A count and the byte after it.
    fn count(&mut self, after: u8) -> Result<usize, u32> {
        let mut digits = String::new();
        loop {
            let byte = self.byte()?;
            let one_more = byte.is_ascii_digit() && digits.len() < 10 && digits != "0";
            match one_more {
                true => digits.push(byte as char),
                false if byte == after && !digits.is_empty() => return Ok(digits.parse().unwrap()),
                false => return Err(14),
            }
        }
    }

    /// A block of big-endian numbers and its line feed.
    fn block(&mut self, numbers: usize) -> Result<Vec<u32>, u32> {
        let (block, rest) = self.0.split_at_checked(4 * numbers).ok_or(11u32)?;
        self.0 = rest;
        self.text("\n")?;
        let number = |bytes: &[u8]| u32::from_be_bytes(bytes.try_into().unwrap());
        Ok(block.chunks(4).map(number).collect())
    }
}

/// The refusal of a file by its rules, or the points' bits and the cells. What the component numbers should be
/// is asked of the library: its own tests compare them.
fn model(file: &[u8]) -> Result<(Vec<u32>, Vec<[u32; 4]>), u32> {
    let mut front = Front(file);
    front.text("# vtk DataFile Version 3.0\n")?;
    front.title()?;
    front.text("BINARY\nDATASET UNSTRUCTURED_GRID\nPOINTS ")?;
    let points = front.count(b' ')?;
    front.text("float\n")?;
    let bits = front.block(3 * points)?;
    front.text("CELLS ")?;
    let cells = front.count(b' ')?;
    front.text(&format!("{}\n", 5 * cells))?;
    let numbers = front.block(5 * cells)?;
    front.text(&format!("CELL_TYPES {cells}\n"))?;
    let types = front.block(cells)?;
    front.text(&format!("CELL_DATA {cells}\nSCALARS component int 1\nLOOKUP_TABLE default\n"))?;
    let components = front.block(cells)?;
    if !front.0.is_empty() {
        return Err(12);
    }
    let leads = numbers.iter().step_by(5);
    if leads.into_iter().any(|lead| *lead != 4) || types.iter().any(|kind| *kind != 10) {
        return Err(15);
    }
    let cells: Vec<[u32; 4]> = numbers.chunks(5).map(|c| c[1..].try_into().unwrap()).collect();
    if cells.as_flattened().iter().any(|point| *point as usize >= points) {
        return Err(8);
    }
    let mesh = Mesh { points: vec![[0.0; 3]; points], cells: cells.clone() };
    if mesh.components().unwrap().numbers != components {
        return Err(13);
    }
    Ok((bits, cells))
}

/// The library's answer is the model's, bit for bit.
fn agrees(file: &[u8]) -> Result<(), u32> {
    let told = Mesh::from_vtk(file);
    let bits = |mesh: Mesh| {
        let coordinates = mesh.points.as_flattened().iter();
        let bits: Vec<u32> = coordinates.map(|x| x.to_bits()).collect();
        (bits, mesh.cells)
    };
    let told = told.map(bits).map_err(|refusal| refusal.number);
    let expected = model(file);
    assert_eq!(told, expected);
    expected.map(|_| ())
}

fn small_files() -> Vec<Vec<u8>> {
    let odd = [f32::NAN, f32::from_bits(0xFF80_0001), -0.0];
    let mesh = |points: usize, cells: &[[u32; 4]]| Mesh {
        points: (0..points).map(|n| if n == 1 { odd } else { [n as f32, 0.5, -1.0e-40] }).collect(),
        cells: cells.to_vec(),
    };
    let meshes = [mesh(0, &[]), mesh(4, &[[0, 1, 2, 3]]), mesh(10, &[[3, 3, 3, 3], [0, 1, 2, 4]])];
    meshes.iter().map(|mesh| mesh.to_vtk().unwrap()).collect()
}

const FIRST: &[u8] = b"# vtk DataFile Version 3.0\n";
const TITLE: &[u8] = b"cover mesh";

fn titled(file: &[u8], title: &[u8]) -> Vec<u8> {
    [FIRST, title, &file[FIRST.len() + TITLE.len()..]].concat()
}

#[test]
fn what_is_written_reads_back() {
    for file in small_files() {
        assert_eq!(agrees(&file), Ok(()));
        let mesh = Mesh::from_vtk(&file).unwrap();
        assert_eq!(mesh.to_vtk().unwrap(), file);
    }
}

#[test]
fn every_leading_part_is_11_and_every_longer_file_12() {
    for file in small_files() {
        for length in 0..file.len() {
            assert_eq!(agrees(&file[..length]), Err(11));
        }
        for byte in 0..=255 {
            assert_eq!(agrees(&[&file[..], &[byte]].concat()), Err(12));
        }
    }
}

#[test]
fn every_change_of_one_byte_is_judged_right() {
    let mut met = [0; 16];
    for file in small_files() {
        for place in 0..file.len() {
            for byte in (0..=255).filter(|byte| *byte != file[place]) {
                let mut changed = file.clone();
                changed[place] = byte;
                met[agrees(&changed).err().unwrap_or(0) as usize] += 1;
            }
        }
    }
    for number in [0, 8, 11, 13, 14, 15] {
        assert!(met[number] > 0, "no change gave {number}");
    }
}

#[test]
fn titles_of_up_to_255_bytes_are_read() {
    for file in small_files() {
        for length in [0, 1, 254, 255] {
            assert_eq!(agrees(&titled(&file, &vec![b'\r'; length])), Ok(()));
        }
        for length in [256, 257, 1000] {
            assert_eq!(agrees(&titled(&file, &vec![b'x'; length])), Err(14));
        }
        assert_eq!(agrees(&[FIRST, &[b'x'; 255]].concat()), Err(11));
        assert_eq!(agrees(&[FIRST, &[b'x'; 256]].concat()), Err(14));
    }
}

#[test]
fn hostile_counts_are_refused_at_once() {
    let head = [FIRST, b"\nBINARY\nDATASET UNSTRUCTURED_GRID\nPOINTS "].concat();
    for (count, refusal) in [
        ("4294967295 float\n", 11),
        ("9999999999 float\n", 11),
        ("10000000000 float\n", 14),
        ("00 float\n\n", 14),
        ("01 float\n", 14),
        ("-1 float\n", 14),
        (" float\n", 14),
        ("0 float\n\nCELLS 1999999999 9999999995\n", 11),
        ("0 float\n\nCELLS 0 00\n", 14),
        ("0 float\n\nCELLS 2 11\n", 14),
    ] {
        let file = [&head, count.as_bytes(), &[0; 64]].concat();
        assert_eq!(agrees(&file), Err(refusal), "{count}");
    }
    let file = [&head, &b"0 float\n\nCELLS 2000000000 10000000000\n"[..]].concat();
    assert_eq!(Mesh::from_vtk(&file).unwrap_err().number, 14);
}
