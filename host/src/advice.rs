//! Which cell sizes a part takes: at each level the least that the plan accepts, and what comes of it.

use crate::cover::Request;
use crate::crossed::Crossed;
use crate::part::Part;
use crate::plan::{Bounds, Plan};
use crate::refusal::{Refusal, TooLarge, AXES};
use crate::spacing::Steps;

/// The greatest number of levels a plan takes.
pub const MOST_LEVELS: u32 = 5;

const MOST_OCTANTS: f64 = 1_048_576.0;

/// What the memory in use comes to, in bytes for a cell of the grid and for a triangle (docs/SPEED.md).
const BYTES_A_CELL: u64 = 61;
const BYTES_A_TRIANGLE: u64 = 120;

/// What comes of a plan.
#[derive(Clone, Copy, Debug)]
pub struct Forecast {
    pub plan: Plan,
    /// The grid's cells, counted by the library.
    pub cells: u64,
    pub memory: u64,
}

impl Forecast {
    pub fn new(part: &Part, plan: Plan) -> Result<Self, Refusal> {
        let crossed = Crossed::new(&part.surface, &plan);
        let cells = plan.cells(&plan.refine(&crossed.octants)?.split)?;
        let triangles = part.surface.facets().len() as u64;
        Ok(Forecast { plan, cells, memory: BYTES_A_CELL * cells + BYTES_A_TRIANGLE * triangles })
    }
}

/// The plan with the least cell size of three digits that is accepted at these levels, if one of at most four times the
/// box's longest side is: each was asked. Near the least one acceptance comes and goes.
pub fn least_cell(bounds: Bounds, levels: u32) -> Option<Plan> {
    let longest = sides(bounds).into_iter().fold(0.0, f64::max);
    let sizes = three_digits(longest / 128.0).take_while(|size| f64::from(*size) <= 4.0 * longest);
    let accepted = |size: f32| Plan::new(bounds, size, levels).ok();
    sizes.filter_map(accepted).find(|plan| Steps::of(plan).check(plan).is_ok())
}

/// The numbers of three digits from about this one on, ascending.
fn three_digits(from: f64) -> impl Iterator<Item = f32> {
    let decade = from.log10().floor() as i32;
    let decades = (decade..).take(if from > 0.0 { 6 } else { 0 });
    let digits = decades.flat_map(|decade| (100..1000).map(move |digits| (digits, decade - 2)));
    let numbers = digits.filter_map(|(digits, power)| format!("{digits}e{power}").parse().ok());
    numbers.filter(move |number| f64::from(*number) >= from && *number > 0.0)
}

fn sides(Bounds { min, max }: Bounds) -> [f64; 3] {
    std::array::from_fn(|axis| f64::from(max[axis]) - f64::from(min[axis]))
}

/// What to do about a box that is too large: what the refusal names, by how much it is too large, and what fits, of
/// which the plan was asked.
pub fn instead(bounds: Bounds, request: Request, named: TooLarge) -> String {
    let order = |plan: Plan| format!("--levels {} --cell {}", plan.levels(), plan.cell());
    let own = match least_cell(bounds, request.levels) {
        Some(plan) => format!("a cell of {} fits ({})", plan.cell(), order(plan)),
        None => format!("no cell of use fits {} levels", request.levels),
    };
    let long = match named {
        TooLarge::Axis(axis) => too_long(bounds, request, axis),
        TooLarge::Octants => too_many(bounds, request),
    };
    match finest(bounds) {
        Some(plan) => {
            format!("{long}; {own}; the finest unit, {}, comes of {}", plan.half(), order(plan))
        }
        None => format!("{long}; {own}"),
    }
}

/// Of the plans with the least cell at each level the one with the least unit.
pub fn finest(bounds: Bounds) -> Option<Plan> {
    let plans = (0..=MOST_LEVELS).filter_map(|levels| least_cell(bounds, levels));
    plans.min_by(|one, other| one.half().total_cmp(&other.half()))
}

/// What the plan counts along an axis: cells on both sides of the box, how much of a cell one is, the most, its name.
fn measure(levels: u32) -> (f64, f64, f64, &'static str) {
    match levels {
        0 => (4.0, 0.5, 128.0, "half cells"),
        _ => (6.0, 1.0, 64.0, "roots"),
    }
}

/// About how many of them there are along an axis. A refusal hands out no dimension, so this is worked out here.
fn count(bounds: Bounds, Request { cell, levels, .. }: Request, axis: usize) -> f64 {
    let (around, width, ..) = measure(levels);
    ((sides(bounds)[axis] / f64::from(cell) + around) / width).ceil()
}

/// Why the plan names this axis: it is too long, or what is reckoned of it runs past the floats.
fn too_long(bounds: Bounds, request: Request, axis: usize) -> String {
    let (around, width, most, name) = measure(request.levels);
    let (cell, count, along) = (f64::from(request.cell), count(bounds, request, axis), AXES[axis]);
    let ends = [bounds.min[axis], bounds.max[axis]].map(|end| f64::from(end).abs());
    let reach = ends.into_iter().fold(sides(bounds)[axis], f64::max) + (around + 1.0) * cell;
    if count <= most && reach > f64::from(f32::MAX) {
        return format!("with this cell the box runs past the 32-bit floats along {along}");
    }
    let about = match count > most {
        true => format!("about {count}"),
        false => format!("a little over {most}"),
    };
    format!(
        "the box is too long along {along}: {about} {name} of {}, at most {most}",
        (width * cell) as f32
    )
}

fn too_many(bounds: Bounds, request: Request) -> String {
    let roots: f64 = (0..3).map(|axis| count(bounds, request, axis)).product();
    let octants = roots * (0..request.levels).map(|level| 8f64.powi(level as i32)).sum::<f64>();
    format!("{roots} roots make about {octants} octants, at most {MOST_OCTANTS}")
}

#[cfg(test)]
mod tests {
    use super::*;

    const CUBE: Bounds = Bounds { min: [0.0; 3], max: [10.0; 3] };

    #[test]
    fn the_least_cell_is_accepted_and_the_next_smaller_is_not() {
        for levels in 0..5 {
            let plan = least_cell(CUBE, levels).unwrap();
            let sizes: Vec<f32> =
                three_digits(0.01).take_while(|size| *size < plan.cell()).collect();
            assert!(sizes.iter().all(|size| Plan::new(CUBE, *size, levels).is_err()));
        }
        assert!(least_cell(CUBE, 5).is_none());
        assert_eq!(finest(CUBE).map(|plan| plan.levels()), Some(2));
        assert!(least_cell(Bounds::default(), 1).is_none());
    }

    /// What is told of a plan that is refused with 4.
    fn told(bounds: Bounds, cell: f32, levels: u32) -> String {
        let named = Plan::new(bounds, cell, levels).unwrap_err().too_large().unwrap();
        instead(bounds, Request { cell, levels, ..Request::default() }, named)
    }

    #[test]
    fn advice_names_the_side_and_what_fits() {
        let long = Bounds { min: [0.0; 3], max: [10.0, 700.0, 10.0] };
        let words = told(long, 10.0, 1);
        let start =
            "the box is too long along y: about 76 roots of 10, at most 64; a cell of 12.1 fits";
        assert!(words.starts_with(start), "{words}");
        assert!(words.contains("(--levels 1 --cell 12.1)"), "{words}");
        let words = told(long, 10.0, 0);
        assert!(
            words.starts_with("the box is too long along y: about 148 half cells of 5"),
            "{words}"
        );
        let words = told(CUBE, 10.0, 5);
        assert!(words.starts_with("343 roots make about 1605583 octants"), "{words}");
        assert!(words.contains("no cell of use fits 5 levels"), "{words}");
        let words = told(CUBE, 1e38, 1);
        assert!(
            words.starts_with("with this cell the box runs past the 32-bit floats along x;"),
            "{words}"
        );
    }

    #[test]
    fn the_cell_that_is_told_fits() {
        for (side, cell, levels) in
            [(700.0, 10.0, 1), (59.0, 1.0, 2), (5.0, 0.01, 0), (33.3, 0.5, 1)]
        {
            for axis in 0..3 {
                let mut bounds = CUBE;
                bounds.max[axis] = side;
                let words = told(bounds, cell, levels);
                let fits = words.split("a cell of ").nth(1).and_then(|rest| rest.split(' ').next());
                let fits: f32 = fits.unwrap_or_default().parse().unwrap();
                assert!(Plan::new(bounds, fits, levels).is_ok(), "{words}");
            }
        }
    }
}
