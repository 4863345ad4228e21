//! The worked numbers and edges of docs/RULES.md, section 13, with what they give.

use crate::calls::PlanCall;
use crate::expected::plan::{Refused, OCTANTS};
use crate::library::Bounds;
use lifted::lent::Layout;

/// What a worked plan gives: dimensions and octants, or its refusal.
pub type Worked = Result<([i32; 3], usize), Refused>;

fn too_large(names: u32) -> Worked {
    Err(Refused { number: 4, names })
}

fn x_side(from: f32, to: f32, c: f32, levels: u32) -> PlanCall {
    PlanCall {
        bounds: Bounds {
            min: [from, 0.0, 0.0],
            max: [to, 0.0, 0.0],
        },
        c,
        levels,
    }
}

fn cube(from: f32, to: f32, c: f32, levels: u32) -> PlanCall {
    PlanCall {
        bounds: Bounds {
            min: [from; 3],
            max: [to; 3],
        },
        c,
        levels,
    }
}

pub fn plans() -> Vec<(PlanCall, Worked)> {
    let least = f32::from_bits(1);
    let mut plans = vec![
        (cube(0.0, 0.0, 1.0, 0), Ok(([8; 3], 0))),
        (cube(0.0, 0.25, 1.0, 0), Ok(([9; 3], 0))),
        (cube(0.0, 0.0, 1.0, 1), Ok(([6; 3], 216))),
        (cube(0.0, 0.0, 1.0, 2), Ok(([6; 3], 1944))),
        (x_side(0.0, 58.0, 1.0, 1), Ok(([64, 6, 6], 2304))),
        (x_side(0.0, 59.0, 1.0, 1), too_large(0)),
        (x_side(0.0, 60.0, 1.0, 0), Ok(([128, 8, 8], 0))),
        (x_side(0.0, 60.5, 1.0, 0), too_large(0)),
        (cube(0.0, 0.0, 1.0, 5), Ok(([6; 3], 1_011_096))),
        (x_side(0.0, 0.25, 1.0, 5), too_large(OCTANTS)),
        (cube(0.0, 0.0, 1.7, 1), Ok(([7; 3], 343))),
        (cube(1.0e8, 1.0e8, 1.0, 1), Ok(([4; 3], 64))),
        (cube(0.0, 0.0, least, 1), Ok(([6; 3], 216))),
        (cube(0.0, 0.0, least, 0), too_large(0)),
        (x_side(0.0, 1.0e36, 5.6e37, 1), too_large(0)),
        (x_side(-7.312_715, -7.312_715, 0.3, 1), Ok(([7, 6, 6], 252))),
        (cube(0.0, -0.0, 1.0, 1), Ok(([6; 3], 216))),
        (cube(0.0, 0.0, 1.0, 6), Err(3.into())),
        (cube(1.0, 0.0, 1.0, 6), Err(2.into())),
        (cube(f32::NAN, 0.0, 0.0, 6), Err(1.into())),
        (cube(f32::NAN, f32::NAN, 1.0, 6), Err(2.into())),
        (cube(0.0, f32::INFINITY, 1.0, 0), Err(2.into())),
    ];
    for c in [0.0, -0.0, -1.0, f32::NAN, f32::INFINITY, f32::NEG_INFINITY] {
        plans.push((cube(0.0, 0.0, c, 0), Err(1.into())));
    }
    plans
}

/// The worked refinement of nine octants: its plan and its crossing answers.
pub fn nine_octants() -> (PlanCall, Vec<u8>) {
    let layout = Layout {
        levels: 2,
        dims: [6; 3],
    };
    let mut crossing = vec![0; layout.len()];
    crossing[layout.place(2, [2, 2, 2])] = 1;
    crossing[layout.place(1, [4, 4, 4])] = 1;
    (cube(0.0, 0.0, 1.0, 2), crossing)
}
