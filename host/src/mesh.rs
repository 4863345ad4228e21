//! Meshes: numbers by vertices and by faces, pieces, and files of both kinds.

use crate::lent::{self, Answer};
use crate::refusal::{Refusal, Step};
use crate::vector::{cross, dot, sub, wide};

/// A function that writes a mesh's file, and one that reads it.
type Writer = fn(&[f32], &[u32], &mut [u8], &mut [u32]) -> Answer;
type Reader = fn(&[u8], &mut [f32], &mut [u32], &mut [u32]) -> Answer;

/// Points and tetrahedra. Anything may stand in it: every step answers or refuses.
#[derive(Clone, Debug, Default, PartialEq)]
pub struct Mesh {
    pub points: Vec<[f32; 3]>,
    /// Each cell names four points.
    pub cells: Vec<[u32; 4]>,
}

/// The answer of [`Mesh::components`] and of [`Mesh::face_components`].
#[derive(Clone, Debug, PartialEq, Eq)]
pub struct Components {
    /// A number for each cell, counted up from 0 by first appearance.
    pub numbers: Vec<u32>,
    /// How many different numbers there are.
    pub count: u64,
}

/// In how many pieces a mesh is: the answer of [`Mesh::pieces`].
#[derive(Clone, Copy, Debug, PartialEq, Eq)]
pub struct Pieces {
    /// Joined through whole faces; nothing where a cell names one point twice.
    pub by_faces: Option<u64>,
    /// Joined through shared vertices, as the files number them.
    pub by_vertices: u64,
}

impl Mesh {
    /// A number for each cell; cells joined through shared vertices have the same one. Refused with 4
    /// or 8.
    ///
    /// ```
    /// use sporeferry::Mesh;
    /// let cells = vec![[5, 6, 7, 8], [0, 1, 2, 3], [8, 9, 10, 11]];
    /// let mesh = Mesh { points: vec![[0.0; 3]; 12], cells };
    /// let components = mesh.components().unwrap();
    /// assert_eq!((components.numbers, components.count), (vec![0, 1, 0], 2));
    /// ```
    pub fn components(&self) -> Result<Components, Refusal> {
        let (points, cells) = self.tables();
        let mut numbers = vec![0; self.cells.len()];
        let answer = lent::components(points, cells, &mut numbers, &mut self.work());
        let [count, ..] = answer.told(Step::Components)?;
        Ok(Components { numbers, count })
    }

    /// A number for each cell; cells joined through whole faces, three points in common, have the same one. It refines
    /// the numbers of [`Mesh::components`]. Refused with 4, 8 or 17.
    ///
    /// ```
    /// use sporeferry::Mesh;
    /// let cells = vec![[0, 1, 2, 3], [3, 4, 5, 6], [0, 3, 2, 7]];
    /// let mesh = Mesh { points: vec![[0.0; 3]; 8], cells };
    /// let faces = mesh.face_components().unwrap();
    /// assert_eq!((faces.numbers, faces.count), (vec![0, 1, 0], 2));
    /// assert_eq!(mesh.components().unwrap().count, 1);
    /// ```
    pub fn face_components(&self) -> Result<Components, Refusal> {
        let (points, cells) = self.tables();
        let mut numbers = vec![0; self.cells.len()];
        let answer = lent::face_components(points, cells, &mut numbers, &mut self.face_work());
        let [count, ..] = answer.told(Step::FaceComponents)?;
        Ok(Components { numbers, count })
    }

    /// Whether all cells have the same number by faces; a mesh without cells is not one piece.
    /// Refused with 4, 8 or 17.
    ///
    /// ```
    /// use sporeferry::Mesh;
    /// let mesh = Mesh { points: vec![[0.0; 3]; 7], cells: vec![[0, 1, 2, 3]] };
    /// assert_eq!(mesh.one_piece(), Ok(true));
    /// let hinge = Mesh { cells: vec![[0, 1, 2, 3], [3, 4, 5, 6]], ..mesh };
    /// assert_eq!(hinge.one_piece(), Ok(false));
    /// assert_eq!(Mesh::default().one_piece(), Ok(false));
    /// ```
    pub fn one_piece(&self) -> Result<bool, Refusal> {
        let (points, cells) = self.tables();
        let answer = lent::one_piece(points, cells, &mut self.face_work());
        Ok(answer.told(Step::OnePiece)?[0] == 1)
    }

    /// In how many pieces the mesh is, by faces and by vertices. Refused with 4 or 8.
    pub fn pieces(&self) -> Result<Pieces, Refusal> {
        let by_faces = match self.face_components() {
            Ok(faces) => Some(faces.count),
            Err(refusal) if refusal.number == 17 => None,
            Err(refusal) => return Err(refusal),
        };
        // Cells with one number by faces have one by vertices too.
        let by_vertices = match by_faces {
            Some(count @ (0 | 1)) => count,
            _ => self.components()?.count,
        };
        Ok(Pieces { by_faces, by_vertices })
    }

    /// The bytes of the mesh's file. Refused with 4 or 8.
    ///
    /// ```
    /// use sporeferry::Mesh;
    /// assert_eq!(Mesh::default().to_bytes().unwrap(), [0; 12]);
    /// let missing = Mesh { points: vec![], cells: vec![[0, 0, 0, 0]] };
    /// assert_eq!(missing.to_bytes().unwrap_err().number, 8);
    /// ```
    pub fn to_bytes(&self) -> Result<Vec<u8>, Refusal> {
        self.written(Step::WriteMesh, lent::write_mesh)
    }

    /// Asks with an empty table first, to learn the number of bytes.
    fn written(&self, step: Step, writer: Writer) -> Result<Vec<u8>, Refusal> {
        let (points, cells) = self.tables();
        let mut work = self.work();
        let mut write = |file: &mut [u8]| writer(points, cells, file, &mut work).told(step);
        match write(&mut []) {
            Err(short) if short.number == 9 => {
                let mut file = vec![0; short.values[0] as usize];
                write(&mut file).map(|_| file)
            }
            told => told.map(|_| Vec::new()),
        }
    }

    /// The bytes of the mesh as a legacy VTK file, for viewers: the component numbers are its cell data.
    /// Refused with 4 or 8.
    ///
    /// ```
    /// use sporeferry::Mesh;
    /// let mesh = Mesh { points: vec![[1.5; 3]; 4], cells: vec![[0, 1, 2, 3]] };
    /// let file = mesh.to_vtk().unwrap();
    /// assert!(file.starts_with(b"# vtk DataFile Version 3.0\ncover mesh\nBINARY\n"));
    /// assert_eq!(Mesh::from_vtk(&file), Ok(mesh));
    /// ```
    pub fn to_vtk(&self) -> Result<Vec<u8>, Refusal> {
        self.written(Step::WriteVtk, lent::write_vtk)
    }

    /// The mesh of a file's bytes. Refused with 11, 12, 4, 8 or 13.
    ///
    /// ```
    /// use sporeferry::Mesh;
    /// let mesh = Mesh { points: vec![[1.5; 3]; 4], cells: vec![[0, 1, 2, 3]] };
    /// let mut file = mesh.to_bytes().unwrap();
    /// assert_eq!(Mesh::from_bytes(&file), Ok(mesh));
    /// file.push(0);
    /// assert_eq!(Mesh::from_bytes(&file).unwrap_err().number, 12);
    /// ```
    pub fn from_bytes(file: &[u8]) -> Result<Self, Refusal> {
        Self::read(Step::ReadMesh, lent::read_mesh, file)
    }

    /// Asks with empty tables first, to learn the numbers of points and cells.
    fn read(step: Step, reader: Reader, file: &[u8]) -> Result<Self, Refusal> {
        match reader(file, &mut [], &mut [], &mut []).told(step) {
            Err(short) if short.number == 9 => {
                let [points, cells, _] = short.values.map(|count| count as usize);
                let (mut points, mut cells) = (vec![[0.0; 3]; points], vec![[0; 4]; cells]);
                let mut work = vec![0; 2 * points.len()];
                let (to, named) = (points.as_flattened_mut(), cells.as_flattened_mut());
                reader(file, to, named, &mut work).told(step)?;
                Ok(Mesh { points, cells })
            }
            told => told.map(|_| Mesh::default()),
        }
    }

    /// The mesh of a VTK file's bytes, of exactly the layout that [`Mesh::to_vtk`] writes, under any title of at most
    /// 255 bytes. Refused with 14, 11, 12, 15, 4, 8 or 13.
    pub fn from_vtk(file: &[u8]) -> Result<Self, Refusal> {
        Self::read(Step::ReadVtk, lent::read_vtk, file)
    }

    /// The sum of the cells' absolute volumes, in f64. A cell that names a missing point counts nothing.
    /// Computed here, not by the proved library.
    pub fn volume(&self) -> f64 {
        let point = |number: u32| self.points.get(number as usize).copied().map(wide);
        let volume = |cell: &[u32; 4]| {
            let [a, b, c, d] = cell.map(point);
            let (a, b, c, d) = (a?, b?, c?, d?);
            Some(dot(cross(sub(b, a), sub(c, a)), sub(d, a)).abs() / 6.0)
        };
        self.cells.iter().filter_map(volume).sum()
    }

    fn tables(&self) -> (&[f32], &[u32]) {
        (self.points.as_flattened(), self.cells.as_flattened())
    }

    fn work(&self) -> Vec<u32> {
        vec![0; 2 * self.points.len()]
    }

    fn face_work(&self) -> Vec<u32> {
        vec![0; 16 * self.cells.len()]
    }
}
