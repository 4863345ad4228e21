//! STL files, binary and text. Normals and attributes are not read; names are skipped.

use std::fmt;

/// A triangle of the file: three corners.
pub type Facet = [[f32; 3]; 3];

/// Why bytes are no usable STL file.
#[derive(Clone, Debug, PartialEq, Eq)]
pub enum StlError {
    /// Neither a text file that starts with "solid" nor long enough for a binary one.
    NotStl,
    /// A binary file that announces so many triangles and has another length than they take.
    WrongLength { announced: u32, bytes: usize },
    /// A text file where this line should have held something else.
    Text { line: usize, expected: &'static str },
    /// A text file that ends where something is still to come.
    Ends { expected: &'static str },
    /// A triangle, counted from 1, with a coordinate that is no finite 32-bit float.
    NotFinite { triangle: usize },
    /// No triangles.
    Empty,
}

impl fmt::Display for StlError {
    fn fmt(&self, f: &mut fmt::Formatter<'_>) -> fmt::Result {
        match self {
            StlError::NotStl => write!(f, "not an STL file"),
            StlError::WrongLength { announced, bytes } => {
                let right = HEAD as u64 + RECORD as u64 * u64::from(*announced);
                write!(
                    f,
                    "neither a text STL file nor a whole binary one: {announced} triangles take {right} bytes, \
                     this one has {bytes}"
                )
            }
            StlError::Text { line, expected } => write!(f, "line {line}: expected {expected}"),
            StlError::Ends { expected } => write!(f, "the file ends where {expected} is expected"),
            StlError::NotFinite { triangle } => {
                write!(f, "triangle {triangle} has a coordinate that is not a finite 32-bit float")
            }
            StlError::Empty => write!(f, "the file holds no triangles"),
        }
    }
}

impl std::error::Error for StlError {}

/// Title and count of a binary file.
const HEAD: usize = 84;
/// A triangle of a binary file: normal, three corners, attribute.
const RECORD: usize = 50;

/// The triangles of an STL file, at least one, all coordinates finite.
pub fn parse(file: &[u8]) -> Result<Vec<Facet>, StlError> {
    let triangles = match announced(file) {
        _ if is_whole_binary(file) => binary(file),
        _ if is_text(file) => text(file)?,
        Some(announced) => {
            let bytes = file.len();
            return Err(StlError::WrongLength { announced, bytes });
        }
        None => return Err(StlError::NotStl),
    };
    checked(triangles)
}

/// A binary STL file of these triangles, without normals.
///
/// ```
/// use sporeferry::stl;
/// let triangles = [[[0.0; 3], [1.0, 0.0, 0.0], [0.0, 1.0, 0.0]]];
/// assert_eq!(stl::parse(&stl::to_bytes(&triangles)).unwrap(), triangles);
/// ```
pub fn to_bytes(triangles: &[Facet]) -> Vec<u8> {
    let mut file = vec![0; HEAD - 4];
    file.extend((triangles.len() as u32).to_le_bytes());
    for triangle in triangles {
        file.extend([0; 12]);
        file.extend(triangle.as_flattened().iter().flat_map(|x| x.to_le_bytes()));
        file.extend([0; 2]);
    }
    file
}

/// Whether a file has exactly the length that its count of triangles asks for.
pub fn is_whole_binary(file: &[u8]) -> bool {
    announced(file).is_some_and(|count| file.len() as u64 == length_of(count))
}

fn announced(file: &[u8]) -> Option<u32> {
    let count = file.get(HEAD - 4..HEAD)?;
    Some(u32::from_le_bytes(count.try_into().ok()?))
}

fn length_of(count: u32) -> u64 {
    HEAD as u64 + RECORD as u64 * u64::from(count)
}

/// Whether the first word is "solid". Binary files may start so too, but have the right length.
fn is_text(file: &[u8]) -> bool {
    let start = file.trim_ascii_start();
    start.len() >= 5 && start[..5].eq_ignore_ascii_case(b"solid")
}

fn binary(file: &[u8]) -> Vec<Facet> {
    let records = file[HEAD..].chunks_exact(RECORD);
    records.map(|record| facet(&record[12..48])).collect()
}

/// Three corners from 36 bytes.
fn facet(bytes: &[u8]) -> Facet {
    let number = |at: usize| {
        let b = &bytes[4 * at..4 * at + 4];
        f32::from_le_bytes([b[0], b[1], b[2], b[3]])
    };
    std::array::from_fn(|corner| std::array::from_fn(|axis| number(3 * corner + axis)))
}

fn checked(triangles: Vec<Facet>) -> Result<Vec<Facet>, StlError> {
    let finite = |triangle: &Facet| triangle.as_flattened().iter().all(|x| x.is_finite());
    match triangles.iter().position(|triangle| !finite(triangle)) {
        Some(place) => Err(StlError::NotFinite { triangle: place + 1 }),
        None if triangles.is_empty() => Err(StlError::Empty),
        None => Ok(triangles),
    }
}

/// The triangles of a text file: solids one after the other, each line's words in their fixed order.
fn text(file: &[u8]) -> Result<Vec<Facet>, StlError> {
    let mut lines = Lines::new(file);
    let mut triangles = Vec::new();
    while lines.more() {
        lines.line(&["solid"])?;
        while !lines.next_is("endsolid") {
            triangles.push(lines.facet()?);
        }
        lines.line(&["endsolid"])?;
    }
    Ok(triangles)
}

/// The lines of a text file that are not blank.
#[derive(Clone, Copy)]
struct Lines<'a> {
    rest: &'a [u8],
    number: usize,
}

impl<'a> Lines<'a> {
    fn new(file: &'a [u8]) -> Self {
        Lines { rest: file, number: 0 }
    }

    /// Takes the next line, with its number counted from 1.
    fn next(&mut self) -> Option<(usize, &'a [u8])> {
        while !self.rest.is_empty() {
            let end = self.rest.iter().position(|byte| *byte == b'\n');
            let (line, rest) = self.rest.split_at(end.map_or(self.rest.len(), |end| end + 1));
            self.rest = rest;
            self.number += 1;
            if !line.trim_ascii().is_empty() {
                return Some((self.number, line));
            }
        }
        None
    }

    fn more(mut self) -> bool {
        self.next().is_some()
    }

    fn next_is(mut self, word: &'static str) -> bool {
        let first = self.next().and_then(|(_, line)| words(line).next());
        first.is_some_and(|first| is(first, word))
    }

    /// Takes a line that starts with these words.
    fn line(&mut self, expected: &'static [&'static str]) -> Result<(usize, &'a [u8]), StlError> {
        let missing = expected[0];
        let (number, line) = self.next().ok_or(StlError::Ends { expected: missing })?;
        let mut found = words(line);
        for word in expected {
            if !found.next().is_some_and(|first| is(first, word)) {
                return Err(StlError::Text { line: number, expected: missing });
            }
        }
        Ok((number, line))
    }

    fn facet(&mut self) -> Result<Facet, StlError> {
        self.line(&["facet"])?;
        self.line(&["outer", "loop"])?;
        let corners = [self.vertex()?, self.vertex()?, self.vertex()?];
        self.line(&["endloop"])?;
        self.line(&["endfacet"])?;
        Ok(corners)
    }

    fn vertex(&mut self) -> Result<[f32; 3], StlError> {
        let (line, content) = self.line(&["vertex"])?;
        let number = |word: &[u8]| std::str::from_utf8(word).ok()?.parse::<f32>().ok();
        let mut found = words(content).skip(1).map(number);
        let mut next =
            || found.next().flatten().ok_or(StlError::Text { line, expected: "three numbers" });
        let corner = [next()?, next()?, next()?];
        match found.next() {
            None => Ok(corner),
            Some(_) => Err(StlError::Text { line, expected: "three numbers" }),
        }
    }
}

fn words(line: &[u8]) -> impl Iterator<Item = &[u8]> {
    let parts = line.split(u8::is_ascii_whitespace);
    parts.filter(|word| !word.is_empty())
}

fn is(found: &[u8], word: &str) -> bool {
    found.eq_ignore_ascii_case(word.as_bytes())
}

#[cfg(test)]
mod tests {
    use super::*;

    const FACET: Facet = [[0.0, 0.0, 0.0], [1.0, 0.0, 0.5], [0.0, 2.5e-3, -1.0]];
    const TEXT: &str = "solid a part\n facet normal 0 0 1\n  outer loop\n   vertex 0 0 0\n\
        \x20  vertex 1 0 .5\n\n   vertex 0 2.5E-3 -1\n  endloop\n endfacet\nendsolid a part\n";

    #[test]
    fn both_kinds_are_read() {
        assert_eq!(parse(&to_bytes(&[FACET; 3])), Ok(vec![FACET; 3]));
        assert_eq!(parse(TEXT.as_bytes()), Ok(vec![FACET]));
        let windows = TEXT.replace('\n', "\r\n").to_uppercase();
        assert_eq!(parse(windows.as_bytes()), Ok(vec![FACET]));
        assert_eq!(parse(TEXT.repeat(2).as_bytes()), Ok(vec![FACET; 2]));
    }

    #[test]
    fn a_binary_file_may_start_with_solid() {
        let mut file = to_bytes(&[FACET]);
        file[..5].copy_from_slice(b"solid");
        assert_eq!(parse(&file), Ok(vec![FACET]));
    }

    #[test]
    fn a_binary_file_of_another_length_is_refused() {
        let file = to_bytes(&[FACET; 2]);
        for bytes in HEAD..file.len() {
            let error = StlError::WrongLength { announced: 2, bytes };
            assert_eq!(parse(&file[..bytes]), Err(error));
        }
        let long = [file, vec![0]].concat();
        assert!(matches!(parse(&long), Err(StlError::WrongLength { .. })));
        let mut hostile = to_bytes(&[]);
        hostile[80..].fill(0xff);
        assert!(matches!(parse(&hostile), Err(StlError::WrongLength { .. })));
    }

    #[test]
    fn what_is_no_stl_file_is_refused() {
        for file in [&b""[..], b"sol", b"PK\x03\x04", &[0; 83]] {
            assert_eq!(parse(file), Err(StlError::NotStl));
        }
    }

    #[test]
    fn every_leading_part_of_a_text_file_is_refused_or_whole() {
        for bytes in 0..TEXT.trim_end().len() - "a part".len() - 1 {
            let found = parse(&TEXT.as_bytes()[..bytes]);
            assert!(found.is_err(), "{bytes} bytes gave {found:?}");
        }
    }

    #[test]
    fn a_text_file_is_refused_at_its_first_wrong_line() {
        let at = |line, expected| Err(StlError::Text { line, expected });
        let with = |old: &str, new: &str| parse(TEXT.replace(old, new).as_bytes());
        assert_eq!(with("outer loop", "outer"), at(3, "outer"));
        assert_eq!(with("vertex 0 0 0", "vertex 0 0"), at(4, "three numbers"));
        assert_eq!(with("vertex 0 0 0", "vertex 0 0 0 0"), at(4, "three numbers"));
        assert_eq!(with("vertex 0 0 0", "vertex 0 0 O"), at(4, "three numbers"));
        assert_eq!(with("endloop", "vertex 1 1 1"), at(8, "endloop"));
        assert_eq!(with("endsolid a part\n", ""), Err(StlError::Ends { expected: "facet" }));
        assert_eq!(parse(&[TEXT, "more"].concat().into_bytes()), at(11, "solid"));
    }

    #[test]
    fn coordinates_that_are_not_finite_are_refused() {
        for word in ["nan", "inf", "-inf", "1e39"] {
            let file = TEXT.replace("vertex 1 0 .5", &format!("vertex 1 0 {word}"));
            assert_eq!(parse(file.as_bytes()), Err(StlError::NotFinite { triangle: 1 }));
        }
        let mut facets = [FACET; 4];
        facets[2][1][0] = f32::NAN;
        let file = to_bytes(&facets);
        assert_eq!(parse(&file), Err(StlError::NotFinite { triangle: 3 }));
    }

    #[test]
    fn a_file_without_triangles_is_refused() {
        assert_eq!(parse(&to_bytes(&[])), Err(StlError::Empty));
        assert_eq!(parse(b"solid nothing\nendsolid nothing\n"), Err(StlError::Empty));
    }

    #[test]
    fn every_error_is_one_sentence() {
        let errors = [
            StlError::NotStl,
            StlError::WrongLength { announced: 2, bytes: 100 },
            StlError::Text { line: 3, expected: "facet" },
            StlError::Ends { expected: "facet" },
            StlError::NotFinite { triangle: 1 },
            StlError::Empty,
        ];
        for error in errors {
            assert!(!error.to_string().contains('\n') && error.to_string().len() > 10);
        }
    }
}
