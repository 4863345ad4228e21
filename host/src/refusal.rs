//! Refusals: the step, its number, the values it carries, and plain words.

use std::fmt;

/// The step that refused.
#[derive(Clone, Copy, Debug, PartialEq, Eq)]
pub enum Step {
    Plan,
    Refine,
    Grid,
    Representatives,
    KeepCover,
    KeepCrust,
    Marks,
    AddCoverage,
    Components,
    FaceComponents,
    OnePiece,
    WriteMesh,
    ReadMesh,
    WriteVtk,
    ReadVtk,
}

impl Step {
    /// The step's name as people say it.
    pub fn name(self) -> &'static str {
        match self {
            Step::Plan => "plan",
            Step::Refine => "refine",
            Step::Grid => "grid",
            Step::Representatives => "representatives",
            Step::KeepCover => "keep (cover)",
            Step::KeepCrust => "keep (crust)",
            Step::Marks => "marks",
            Step::AddCoverage => "add coverage",
            Step::Components => "components",
            Step::FaceComponents => "face components",
            Step::OnePiece => "one piece",
            Step::WriteMesh => "write mesh",
            Step::ReadMesh => "read mesh",
            Step::WriteVtk => "write vtk",
            Step::ReadVtk => "read vtk",
        }
    }
}

/// What a 4 of plan, refine or grid names.
#[derive(Clone, Copy, Debug, PartialEq, Eq)]
pub enum TooLarge {
    /// The first axis, x, y or z by 0, 1 or 2, that is too long or runs past the floats.
    Axis(usize),
    /// Every axis fits, and there are too many octants.
    Octants,
}

/// The names of the axes.
pub const AXES: [&str; 3] = ["x", "y", "z"];

/// Why a step gave no answer. Its `Display` is one plain sentence.
///
/// ```
/// use sporeferry::{Bounds, Plan};
/// let refusal = Plan::new(Bounds::default(), f32::NAN, 0).unwrap_err();
/// assert_eq!(refusal.number, 1);
/// assert_eq!(
///     refusal.to_string(),
///     "refusal 1 of plan: the cell size must be a finite number above zero"
/// );
/// ```
#[derive(Clone, Copy, Debug, PartialEq, Eq)]
pub struct Refusal {
    pub step: Step,
    /// The refusal's number, 1 to 17.
    pub number: u32,
    /// The counts needed on a 9, in the order the header names them; on a 4 of plan, refine and grid first what it
    /// names; else zeros.
    pub values: [u64; 3],
}

impl Refusal {
    /// What a 4 of plan, refine or grid names; `None` of any other refusal.
    ///
    /// ```
    /// use sporeferry::{Bounds, Plan, TooLarge};
    /// let rail = Bounds { min: [0.0; 3], max: [10.0, 700.0, 10.0] };
    /// let refusal = Plan::new(rail, 10.0, 1).unwrap_err();
    /// assert_eq!(refusal.too_large(), Some(TooLarge::Axis(1)));
    /// let refusal = Plan::new(Bounds { min: [0.0; 3], max: [10.0; 3] }, 10.0, 5).unwrap_err();
    /// assert_eq!(refusal.too_large(), Some(TooLarge::Octants));
    /// ```
    pub fn too_large(&self) -> Option<TooLarge> {
        match (self.number, self.step, self.values[0]) {
            (4, Step::Plan | Step::Refine | Step::Grid, axis @ 0..3) => {
                Some(TooLarge::Axis(axis as usize))
            }
            (4, Step::Plan | Step::Refine | Step::Grid, _) => Some(TooLarge::Octants),
            _ => None,
        }
    }

    /// The cause in plain words, without number and step.
    pub fn words(&self) -> String {
        match self.number {
            1 => "the cell size must be a finite number above zero".into(),
            2 => {
                "the box has a bound that is not finite, or a least bound above its greatest".into()
            }
            3 => "more than 5 levels were asked for".into(),
            4 => self.over_a_bound(),
            5 => self.wrong_length().into(),
            6 => self.wrong_byte().into(),
            7 => "the split table is no graded octree: an octant is split under one that is not, \
                  or touching leaves are more than one level apart"
                .into(),
            8 => "a cell names a point that is not there".into(),
            9 => self.too_short(),
            10 => "nothing is kept: no cell is marked, or all that are marked are flat".into(),
            11 => "the file ends inside a count or a section".into(),
            12 => "the file has bytes after its last section".into(),
            13 => "the component numbers in the file are not those of its cells".into(),
            14 => "the file departs from the layout of our VTK files".into(),
            15 => "a cell of the file is no tetrahedron of four points".into(),
            16 => "a coordinate is above 4,096, or a total does not fit 64 bits".into(),
            17 => "a cell names one point twice".into(),
            number => format!("the library gave {number}, a number these bindings do not know"),
        }
    }

    fn over_a_bound(&self) -> String {
        match self.too_large() {
            Some(TooLarge::Axis(axis)) => format!(
                "the box is too long along {} for this cell size (an octree has at most 64 roots along an axis, a \
                 lattice at most 64 cells), or runs past the 32-bit floats there",
                AXES[axis]
            ),
            Some(TooLarge::Octants) => {
                "the number of octants is above 1,048,576 at this cell size and these levels".into()
            }
            None => "there are more than 536,870,912 points or cells".into(),
        }
    }

    fn wrong_length(&self) -> &'static str {
        match self.step {
            Step::Refine => "the crossing table must have one byte for each octant",
            Step::Grid => "the split table must have one byte for each octant",
            Step::Representatives | Step::KeepCrust => {
                "the crossing table must have one byte for each cell"
            }
            Step::KeepCover | Step::Marks => {
                "the crossing and probe tables must have one byte for each cell"
            }
            Step::AddCoverage => "the table of marks must have one byte for each cell",
            _ => "a table has the wrong length",
        }
    }

    fn wrong_byte(&self) -> &'static str {
        match self.step {
            Step::Grid => "the split table holds a byte other than 0 and 1",
            Step::KeepCover | Step::Marks => {
                "the crossing or probe table holds a byte other than 0 and 1"
            }
            Step::AddCoverage => "the table of marks holds a byte other than 0, 1 and 2",
            _ => "the crossing table holds a byte other than 0 and 1",
        }
    }

    fn too_short(&self) -> String {
        let [first, second, _] = self.values;
        match self.step {
            Step::Refine => format!("the split table needs room for {first} octants"),
            Step::Grid if second == 0 => format!("{first} cells and their work need more room"),
            Step::Grid => format!("{first} cells with {second} vertices need more room"),
            Step::KeepCover | Step::KeepCrust | Step::ReadMesh | Step::ReadVtk => {
                format!("{first} points and {second} cells need more room")
            }
            Step::Marks => format!("the table of marks needs room for {first} cells"),
            Step::WriteMesh | Step::WriteVtk => format!("the file needs room for {first} bytes"),
            _ => format!("the result needs room for {first} entries"),
        }
    }
}

impl fmt::Display for Refusal {
    fn fmt(&self, f: &mut fmt::Formatter<'_>) -> fmt::Result {
        let (number, step) = (self.number, self.step.name());
        write!(f, "refusal {number} of {step}: {}", self.words())
    }
}

impl std::error::Error for Refusal {}
