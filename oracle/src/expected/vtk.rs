//! The viewer's format: legacy VTK 3.0, BINARY, UNSTRUCTURED_GRID, all values big-endian.

use super::components::numbers_of;
use super::mesh::{Mesh, MOST};
use super::mesh_file::{taken, written};
use crate::library::Answer;

const FIRST: &[u8] = b"# vtk DataFile Version 3.0\n";
const KIND: &[u8] = b"BINARY\nDATASET UNSTRUCTURED_GRID\n";
const LAST: &[u8] = b"SCALARS component int 1\nLOOKUP_TABLE default\n";
const MOST_TITLE: usize = 256;

fn block(file: &mut Vec<u8>, values: impl IntoIterator<Item = u32>) {
    file.extend(values.into_iter().flat_map(u32::to_be_bytes));
    file.push(b'\n');
}

/// The file of a mesh whose cells name points that are there.
pub fn encode(mesh: Mesh) -> Vec<u8> {
    let (p, n) = (mesh.point_count(), mesh.cell_count());
    let mut file = [FIRST, b"cover mesh\n", KIND].concat();
    file.extend(format!("POINTS {p} float\n").bytes());
    block(&mut file, mesh.points.iter().copied());
    file.extend(format!("CELLS {n} {}\n", 5 * n).bytes());
    let quads = mesh.quads();
    block(
        &mut file,
        quads.iter().flat_map(|q| [4, q[0], q[1], q[2], q[3]]),
    );
    file.extend(format!("CELL_TYPES {n}\n").bytes());
    block(&mut file, quads.iter().map(|_| 10));
    file.extend(format!("CELL_DATA {n}\n").bytes());
    file.extend(LAST);
    block(&mut file, numbers_of(mesh));
    file
}

/// The step `write_vtk`.
pub fn write_vtk(mesh: Mesh, file: &mut [u8], work: &mut [u32]) -> Answer {
    written(mesh, file, work, encode)
}

/// A place in a file. Each reading takes what the layout wants, or gives 11 where the file ends,
/// 14 at a byte that departs.
struct Cursor<'a> {
    rest: &'a [u8],
}

impl<'a> Cursor<'a> {
    fn byte(&mut self) -> Result<u8, u32> {
        let (first, rest) = self.rest.split_first().ok_or(11u32)?;
        self.rest = rest;
        Ok(*first)
    }

    fn literal(&mut self, wanted: &[u8]) -> Result<(), u32> {
        for byte in wanted {
            if self.byte()? != *byte {
                return Err(14);
            }
        }
        Ok(())
    }

    fn title(&mut self) -> Result<(), u32> {
        for _ in 0..MOST_TITLE {
            if self.byte()? == b'\n' {
                return Ok(());
            }
        }
        Err(14)
    }

    /// A count of one to ten digits without leading zeros, and the byte behind it.
    fn count(&mut self, behind: u8) -> Result<u64, u32> {
        let mut value = match self.byte()? {
            digit @ b'0'..=b'9' => u64::from(digit - b'0'),
            _ => return Err(14),
        };
        for digits in 1.. {
            match self.byte()? {
                byte if byte == behind => break,
                digit @ b'0'..=b'9' if digits < 10 && value > 0 => {
                    value = 10 * value + u64::from(digit - b'0');
                }
                _ => return Err(14),
            }
        }
        Ok(value)
    }

    /// A count whose value is known, and the line feed behind it. More than ten digits: 14 at the
    /// eleventh.
    fn known(&mut self, value: u64) -> Result<(), u32> {
        let text = value.to_string().into_bytes();
        self.literal(&text[..text.len().min(10)])?;
        if text.len() > 10 {
            self.byte()?;
            return Err(14);
        }
        self.literal(b"\n")
    }

    /// A block of numbers and its line feed.
    fn block(&mut self, count: u64) -> Result<&'a [u8], u32> {
        let len = 4 * count as usize;
        let (block, rest) = self.rest.split_at_checked(len).ok_or(11u32)?;
        self.rest = rest;
        self.literal(b"\n")?;
        Ok(block)
    }
}

struct Blocks<'a> {
    points: &'a [u8],
    cells: &'a [u8],
    types: &'a [u8],
    numbers: &'a [u8],
}

/// Refusals 14 and 11 from the front, then 12.
fn blocks(file: &[u8]) -> Result<Blocks<'_>, u32> {
    let mut at = Cursor { rest: file };
    at.literal(FIRST)?;
    at.title()?;
    at.literal(KIND)?;
    at.literal(b"POINTS ")?;
    let p = at.count(b' ')?;
    at.literal(b"float\n")?;
    let points = at.block(3 * p)?;
    at.literal(b"CELLS ")?;
    let n = at.count(b' ')?;
    at.known(5 * n)?;
    let cells = at.block(5 * n)?;
    at.literal(b"CELL_TYPES ")?;
    at.known(n)?;
    let types = at.block(n)?;
    at.literal(b"CELL_DATA ")?;
    at.known(n)?;
    at.literal(LAST)?;
    let numbers = at.block(n)?;
    match at.rest {
        [] => Ok(Blocks {
            points,
            cells,
            types,
            numbers,
        }),
        _ => Err(12),
    }
}

fn values(block: &[u8]) -> Vec<u32> {
    let (words, _) = block.as_chunks::<4>();
    words.iter().map(|word| u32::from_be_bytes(*word)).collect()
}

/// The step `read_vtk`.
pub fn read_vtk(file: &[u8], points: &mut [u32], cells: &mut [u32], work: &mut [u32]) -> Answer {
    let blocks = match blocks(file) {
        Ok(blocks) => blocks,
        Err(number) => return Answer::refused(number),
    };
    let led = values(blocks.cells);
    let (led, _) = led.as_chunks::<5>();
    if led.iter().any(|cell| cell[0] != 4) || values(blocks.types).iter().any(|kind| *kind != 10) {
        return Answer::refused(15);
    }
    if blocks.points.len() / 12 > MOST || led.len() > MOST {
        return Answer::refused(4);
    }
    let found_points = values(blocks.points);
    let found_cells: Vec<u32> = led.iter().flat_map(|cell| cell[1..].to_vec()).collect();
    let mesh = Mesh::new(&found_points, &found_cells);
    taken(mesh, &values(blocks.numbers), points, cells, work)
}
