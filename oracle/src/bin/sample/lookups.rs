//! Octrees with questions, and what the lifted `covering_leaf` and `has_finer_vertex` answer.

use crate::record::Tables;
use crate::tape::{bytes, digest, Section};
use lifted::lent::{Layout, MeshOracle};
use lifted::transformation::volume_mesh::cover_octree::doors::{refined_octree, Tree};
use oracle::random::Random;
use oracle::steps::crossing;

/// How many octrees a section has, and how many questions are asked of each.
const OCTREES: usize = 8;
const QUESTIONS: usize = 40;
/// The most roots of an octree, by its levels: a table is short enough to keep.
const MOST_ROOTS: [i32; 5] = [0, 27, 12, 6, 2];

#[derive(Copy, Clone)]
enum Function {
    CoveringLeaf,
    HasFinerVertex,
}

/// Questions that the program tells of in one line; `wrong` of their answers were changed on purpose.
struct Asked {
    name: String,
    octrees: Section,
    questions: usize,
    wrong: usize,
}

pub struct Lookups(Vec<Asked>);

/// An octree: the Rust's, and its split table.
struct Octree {
    layout: Layout,
    split: Vec<u8>,
    tree: Tree,
}

impl Octree {
    /// A graded one; once in four times one of any table.
    fn any(random: &mut Random, levels: u32) -> Self {
        let dims = loop {
            let dims = [(); 3].map(|_| random.between(1, 3) as i32);
            if dims.iter().product::<i32>() <= MOST_ROOTS[levels as usize] {
                break dims;
            }
        };
        let layout = Layout { levels, dims };
        let mut split = crossing(random, &layout);
        if !random.once_in(4) {
            let answers = MeshOracle::of_octants(layout, &split);
            split = refined_octree(&answers, Tree::over(layout)).split_table();
        }
        let tree = Tree::over(layout).subdivided_by(&split);
        Self { layout, split, tree }
    }

    /// An octant around a leaf, inside it, or over it.
    fn octant_near(&self, random: &mut Random) -> (u32, [i32; 3]) {
        let (leaf, c) = random.pick(&self.tree.leaves());
        let level = random.between(0, self.layout.levels.into()) as u32;
        let place = c.map(|x| {
            let low = (x << leaf) >> level;
            let inside = random.below(1 << leaf.saturating_sub(level)) as i32;
            (low + inside + random.between(-1, 1) as i32).max(0)
        });
        (level, place)
    }

    /// A corner of a leaf or a place halfway between two, for its own level or the one above.
    fn vertex_near(&self, random: &mut Random) -> (u32, [i32; 3]) {
        let (leaf, c) = random.pick(&self.tree.leaves());
        let level = self.layout.levels.min(leaf + random.below(2) as u32);
        let place = c.map(|x| (2 * x + random.pick(&[0, 0, 1, 2, 2])) << leaf);
        (level, place)
    }

    fn question(&self, random: &mut Random, function: Function) -> (u32, [i32; 3]) {
        if !random.once_in(3) {
            return match function {
                Function::CoveringLeaf => self.octant_near(random),
                Function::HasFinerVertex => self.vertex_near(random),
            };
        }
        let level = random.between(0, self.layout.levels.into()) as u32;
        let counts = match function {
            Function::CoveringLeaf => self.layout.count(level),
            Function::HasFinerVertex => self.layout.count(0).map(|n| 2 * n),
        };
        (level, along(random, counts))
    }

    /// What the Rust answers: a leaf as a digest, 0 for none; yes or no as 1 or 0.
    fn answer(&self, function: Function, level: u32, place: [i32; 3]) -> u32 {
        match function {
            Function::HasFinerVertex => self.tree.has_finer_vertex(level, place).into(),
            Function::CoveringLeaf => match self.tree.covering_leaf(level, place) {
                None => 0,
                Some((leaf, c)) => {
                    let [x, y, z] = c.map(|x| x as u64);
                    digest(&[1, leaf.into(), x, y, z])
                }
            },
        }
    }
}

/// A place along each axis of so many: any, at a border, just outside, or far off.
fn along(random: &mut Random, counts: [i32; 3]) -> [i32; 3] {
    counts.map(|n| match random.below(12) {
        0 => 0,
        1 => n - 1,
        2 => n,
        3 => random.pick(&[n + 1, 2 * n, i32::MAX]),
        _ => random.below(n as usize) as i32,
    })
}

impl Asked {
    fn new(name: String) -> Self {
        Self {
            name,
            octrees: Section::default(),
            questions: 0,
            wrong: 0,
        }
    }

    /// An octree with its questions, whose answers are turned where `wrong` says so.
    fn push(&mut self, random: &mut Random, function: Function, levels: u32, wrong: bool) {
        let octree = Octree::any(random, levels);
        let mut questions = Vec::new();
        for _ in 0..QUESTIONS {
            let (level, place) = octree.question(random, function);
            let answer = octree.answer(function, level, place) ^ u32::from(wrong);
            questions.extend([answer, level]);
            questions.extend(place.map(|x| x as u32));
        }
        let [nx, ny, nz] = octree.layout.dims.map(|n| n as u32);
        let tables = Tables {
            plan: [nx, ny, nz, 0, 0, 0, 0, levels],
            points: &questions,
            crossing: &octree.split,
            ..Tables::default()
        };
        self.octrees.push(0, function as usize, &tables);
        self.questions += QUESTIONS;
        self.wrong += if wrong { QUESTIONS } else { 0 };
    }
}

impl Lookups {
    pub fn bytes(&self) -> Vec<u8> {
        let sections = self.0.iter();
        bytes(sections.map(|asked| (asked.name.clone(), &asked.octrees)))
    }

    /// What the program prints where it answers as the Rust did.
    pub fn text(&self) -> String {
        let line = |a: &Asked| {
            let (name, questions, wrong) = (&a.name, a.questions, a.wrong);
            format!("{name}: {questions} calls, {wrong} differences\n")
        };
        self.0.iter().map(line).collect()
    }
}

pub fn all(seed: u64) -> Lookups {
    let random = &mut Random::new(seed);
    let functions = [
        ("covering_leaf", Function::CoveringLeaf),
        ("has_finer_vertex", Function::HasFinerVertex),
    ];
    let mut all = Vec::new();
    for (name, function) in functions {
        for levels in 1..=4 {
            let mut asked = Asked::new(format!("{name}, levels {levels}"));
            for _ in 0..OCTREES {
                asked.push(random, function, levels, false);
            }
            all.push(asked);
        }
    }
    let mut changed = Asked::new("answers changed on purpose".into());
    for (_, function) in functions {
        changed.push(random, function, 2, true);
    }
    all.push(changed);
    Lookups(all)
}
