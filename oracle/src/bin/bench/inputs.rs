//! The inputs: octrees and lattices of growing size, with a sphere as their shape.

use oracle::calls::PlanCall;
use oracle::expected::plan::plan;
use oracle::library::Bounds;
use oracle::random::Random;
use oracle::steps::shell;

#[derive(Copy, Clone, PartialEq, Eq, PartialOrd, Ord)]
pub enum Reach {
    Small,
    Usual,
    Large,
}

/// A box with its crossing answers; the sphere lies in the middle of the box.
pub struct Input {
    pub name: String,
    pub plan: PlanCall,
    pub crossing: Vec<u8>,
    pub centre: f32,
    pub radius: f32,
}

/// How the octants are crossed.
enum Crossed {
    None,
    Shell,
    All,
}

fn cube(side: f32, levels: u32) -> PlanCall {
    PlanCall {
        bounds: Bounds {
            min: [0.0; 3],
            max: [side; 3],
        },
        c: 1.0,
        levels,
    }
}

fn input(name: &str, side: f32, levels: u32, radius: f32, crossed: Crossed) -> Input {
    let call = cube(side, levels);
    let layout = plan(&call.bounds, 1.0, levels)
        .expect("an accepted plan")
        .layout;
    let middle = layout.dims.map(|d| f64::from(d) / 2.0);
    let crossing = match crossed {
        Crossed::None => vec![0; layout.len()],
        Crossed::All => vec![1; layout.len()],
        Crossed::Shell => shell(&layout, middle, radius.into()),
    };
    Input {
        name: name.into(),
        plan: call,
        crossing,
        centre: side / 2.0,
        radius,
    }
}

/// The most octants that a box can have with L 5, in its plan, and tables of different contents.
pub fn contents() -> (PlanCall, Vec<(&'static str, Vec<u8>)>) {
    let call = cube(0.0, 5);
    let layout = plan(&call.bounds, 1.0, 5).expect("an accepted plan").layout;
    let mut random = Random::new(1);
    let mut chance = |n: usize| -> Vec<u8> {
        let bytes = (0..layout.len()).map(|_| random.once_in(n).into());
        bytes.collect()
    };
    let (halves, seldom) = (chance(2), chance(512));
    let coarse = |(level, _): (u32, [i32; 3])| level > 1;
    let dense = layout.octants().map(coarse).zip(&seldom);
    let tables = vec![
        ("a spherical shell", shell(&layout, [3.0; 3], 1.9)),
        ("all crossed", vec![1; layout.len()]),
        ("none crossed", vec![0; layout.len()]),
        ("each by chance, one of two", halves),
        (
            "all above level 1, there one of 512",
            dense.map(|(above, byte)| u8::from(above) | byte).collect(),
        ),
    ];
    (call, tables)
}

pub fn all(reach: Reach) -> Vec<Input> {
    let mut inputs = vec![
        input("L 0, 40 an axis", 16.0, 0, 7.0, Crossed::None),
        input("L 3, shell in 6 roots an axis", 0.0, 3, 1.9, Crossed::Shell),
        input("L 4, shell in 6 roots an axis", 0.0, 4, 1.9, Crossed::Shell),
    ];
    if reach >= Reach::Usual {
        inputs.push(input("L 0, 128 an axis", 60.0, 0, 25.0, Crossed::None));
        inputs.push(input(
            "L 5, shell in 6 roots an axis",
            0.0,
            5,
            1.9,
            Crossed::Shell,
        ));
        inputs.push(input(
            "L 1, 64 roots an axis, none split",
            58.0,
            1,
            25.0,
            Crossed::None,
        ));
        inputs.push(input(
            "L 1, 46 roots an axis, all split",
            40.0,
            1,
            16.0,
            Crossed::All,
        ));
    }
    if reach >= Reach::Large {
        inputs.push(input(
            "L 1, 64 roots an axis, all split",
            58.0,
            1,
            25.0,
            Crossed::All,
        ));
    }
    inputs
}
