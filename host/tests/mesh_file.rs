//! Mesh files that were cut or changed: the library's answer against a plain reading of the format.

use sporeferry::Mesh;

/// A count and its section, and the bytes that follow.
fn section(bytes: &[u8], entry: usize) -> Option<(&[u8], &[u8])> {
    let (count, rest) = bytes.split_at_checked(4)?;
    rest.split_at_checked(entry * number(count) as usize)
}

fn number(bytes: &[u8]) -> u32 {
    u32::from_le_bytes(bytes.try_into().unwrap())
}

fn numbers(bytes: &[u8]) -> Vec<u32> {
    bytes.chunks(4).map(number).collect()
}

/// The refusal of a file by its rules, or the mesh.
fn model(file: &[u8]) -> Result<Mesh, u32> {
    let (points, rest) = section(file, 12).ok_or(11u32)?;
    let (cells, rest) = section(rest, 16).ok_or(11u32)?;
    let (components, rest) = section(rest, 4).ok_or(11u32)?;
    if !rest.is_empty() {
        return Err(12);
    }
    let coordinates: Vec<f32> = numbers(points).into_iter().map(f32::from_bits).collect();
    let mesh = Mesh {
        points: coordinates.chunks(3).map(|p| p.try_into().unwrap()).collect(),
        cells: numbers(cells).chunks(4).map(|c| c.try_into().unwrap()).collect(),
    };
    if mesh.cells.as_flattened().iter().any(|p| *p as usize >= mesh.points.len()) {
        return Err(8);
    }
    if numbers(components) != component_numbers(&mesh.cells) {
        return Err(13);
    }
    Ok(mesh)
}

/// Labels spread from cell to cell until nothing changes, then counted up by first appearance.
fn component_numbers(cells: &[[u32; 4]]) -> Vec<u32> {
    let mut labels: Vec<usize> = (0..cells.len()).collect();
    let joined = |a: usize, b: usize| cells[a].iter().any(|point| cells[b].contains(point));
    for _ in 0..cells.len() {
        for a in 0..cells.len() {
            for b in 0..cells.len() {
                if joined(a, b) {
                    labels[a] = labels[a].min(labels[b]);
                }
            }
        }
    }
    let mut seen = Vec::new();
    let numbered = labels.into_iter().map(|label| {
        let place = seen.iter().position(|known| *known == label);
        place.unwrap_or_else(|| {
            seen.push(label);
            seen.len() - 1
        }) as u32
    });
    numbered.collect()
}

fn bits(mesh: &Mesh) -> (Vec<u32>, &[[u32; 4]]) {
    let coordinates = mesh.points.as_flattened().iter();
    (coordinates.map(|x| x.to_bits()).collect(), &mesh.cells)
}

/// The library's answer is the model's, bit for bit.
fn agrees(file: &[u8]) -> Result<(), u32> {
    let (told, expected) = (Mesh::from_bytes(file), model(file));
    match (&told, &expected) {
        (Ok(told), Ok(expected)) => assert_eq!(bits(told), bits(expected)),
        (Err(told), Err(expected)) => assert_eq!(told.number, *expected),
        _ => panic!("{told:?} where {expected:?} was expected"),
    }
    expected.map(|_| ())
}

fn small_meshes() -> Vec<Mesh> {
    let odd = [f32::NAN, f32::from_bits(0xFF80_0001), -0.0];
    let points = |count: usize| -> Vec<[f32; 3]> {
        let at = |n: usize| {
            if n == 1 {
                odd
            } else {
                [n as f32, 0.5, -1.0e-40]
            }
        };
        (0..count).map(at).collect()
    };
    let mesh = |count, cells: &[[u32; 4]]| Mesh { points: points(count), cells: cells.to_vec() };
    vec![
        mesh(0, &[]),
        mesh(2, &[]),
        mesh(4, &[[0, 1, 2, 3]]),
        mesh(5, &[[3, 3, 3, 3], [0, 1, 2, 4], [4, 0, 0, 2]]),
        mesh(7, &[[6, 5, 4, 3], [0, 1, 1, 0], [2, 2, 2, 2], [3, 3, 2, 2]]),
    ]
}

#[test]
fn what_is_written_reads_back() {
    for mesh in small_meshes() {
        let file = mesh.to_bytes().unwrap();
        assert_eq!(file.len(), 12 + 12 * mesh.points.len() + 20 * mesh.cells.len());
        assert_eq!(bits(&Mesh::from_bytes(&file).unwrap()), bits(&mesh));
        assert_eq!(agrees(&file), Ok(()));
    }
}

#[test]
fn every_leading_part_is_11_and_every_longer_file_12() {
    for mesh in small_meshes() {
        let file = mesh.to_bytes().unwrap();
        for length in 0..file.len() {
            assert_eq!(agrees(&file[..length]), Err(11));
        }
        for byte in 0..=255 {
            assert_eq!(agrees(&[&file[..], &[byte]].concat()), Err(12));
        }
    }
}

#[test]
fn every_change_of_one_byte_is_judged_right() {
    let mut met = [0; 14];
    for mesh in small_meshes() {
        let file = mesh.to_bytes().unwrap();
        for place in 0..file.len() {
            for byte in (0..=255).filter(|byte| *byte != file[place]) {
                let mut changed = file.clone();
                changed[place] = byte;
                met[agrees(&changed).err().unwrap_or(0) as usize] += 1;
            }
        }
    }
    for number in [0, 8, 11, 12, 13] {
        assert!(met[number] > 0, "no change gave {number}");
    }
}

#[test]
fn hostile_counts_are_refused_at_once() {
    for count in [0x7FFF_FFFFu32, 0xFFFF_FFFF, 0x2000_0001] {
        for before in [&[][..], &[0; 4], &[0; 8]] {
            let file = [before, &count.to_le_bytes(), &[0; 64]].concat();
            assert_eq!(agrees(&file), Err(11));
        }
    }
}
