//! A call as it stands on the tape: numbers, input tables, tables that its step writes; and what is
//! answered by value.

use oracle::calls::{
    Call, ComponentsCall, CoverageCall, GridCall, KeepCall, MarksCall, OnePieceCall, PlanCall,
    ReadCall, RefineCall, RepresentativesCall, WriteCall,
};
use oracle::lent::{Entry, Lent};
use oracle::library::{Added, Answer, Planned, Totals};
use std::borrow::Cow;

/// What the program fills a table with before the call.
trait Filled: Entry {
    const FILLED: Self;
}

impl Filled for u8 {
    const FILLED: u8 = 0xa5;
}

impl Filled for u32 {
    const FILLED: u32 = 0xa5a5_a5a5;
}

impl Filled for u64 {
    const FILLED: u64 = 0xa5a5_a5a5_a5a5_a5a5;
}

fn refill<T: Filled, const N: usize>(tables: [&mut Lent<T>; N]) {
    for table in tables {
        table.all_mut().fill(T::FILLED);
    }
}

/// The numbers and tables of a call; those that it has not are 0 and empty. `crossing` is a step's
/// first table of bytes, whatever it holds.
#[derive(Default)]
pub struct Tables<'a> {
    pub plan: [u32; 8],
    pub points: &'a [u32],
    pub cells: &'a [u32],
    pub crossing: &'a [u8],
    pub probe: Cow<'a, [u8]>,
    pub written: [&'a [u32]; 3],
    pub written_bytes: &'a [u8],
    pub written_longs: &'a [u64],
}

/// Bytes four to a word, the first lowest, and at least one byte of none behind them.
pub fn packed(bytes: &[u8]) -> Vec<u32> {
    let mut bytes = bytes.to_vec();
    bytes.resize(4 * (bytes.len() / 4 + 1), 0);
    let (words, _) = bytes.as_chunks::<4>();
    words.iter().map(|word| u32::from_le_bytes(*word)).collect()
}

impl Tables<'_> {
    /// The lengths of the tables that are written, then of the inputs.
    pub fn lengths(&self) -> Vec<usize> {
        let [first, second, third] = self.written.map(<[u32]>::len);
        let other = [self.written_bytes.len(), self.written_longs.len()];
        let words = [self.points.len(), self.cells.len()];
        let bytes = [self.crossing.len(), self.probe.len()];
        [&[first, second, third][..], &other, &words, &bytes].concat()
    }

    /// The contents of the inputs.
    pub fn contents(&self) -> Vec<u32> {
        let bytes = [packed(self.crossing), packed(&self.probe)].concat();
        [self.points, self.cells, &bytes].concat()
    }

    /// The entries of all tables that are written.
    pub fn results(&self) -> Vec<u64> {
        let words = self.written.into_iter().flatten().copied().map(u64::from);
        let bytes = self.written_bytes.iter().copied().map(u64::from);
        words
            .chain(bytes)
            .chain(self.written_longs.iter().copied())
            .collect()
    }
}

pub trait Record: Call<Outcome: Values> {
    /// Fills every table that may be written as the program fills it.
    fn refill(&mut self);

    fn tables(&self) -> Tables<'_>;
}

/// What is answered by value.
pub trait Values {
    fn values(&self) -> Vec<u64>;
}

impl Values for Answer {
    fn values(&self) -> Vec<u64> {
        vec![self.number.into(), self.first, self.second, self.third]
    }
}

fn five(totals: &Totals) -> [u64; 5] {
    [
        totals.cells,
        totals.kept,
        totals.dropped,
        totals.sixfold_kept,
        totals.sixfold_all,
    ]
}

impl Values for Added {
    fn values(&self) -> Vec<u64> {
        [&[self.number.into()][..], &five(&self.totals)].concat()
    }
}

impl Values for Planned {
    fn values(&self) -> Vec<u64> {
        let floats = self.origin.iter().chain([&self.half]).map(|x| x.to_bits());
        let whole = self.dims.into_iter().chain([self.octants]);
        let words = [self.number, self.value]
            .into_iter()
            .chain(floats)
            .chain(whole);
        words.map(u64::from).collect()
    }
}

/// A box, a cell size, levels.
fn plan(call: &PlanCall) -> [u32; 8] {
    let [x0, y0, z0] = call.bounds.min.map(f32::to_bits);
    let [x1, y1, z1] = call.bounds.max.map(f32::to_bits);
    [x0, y0, z0, x1, y1, z1, call.c.to_bits(), call.levels]
}

/// A cell size alone.
fn size(c: f32) -> [u32; 8] {
    [0, 0, 0, 0, 0, 0, c.to_bits(), 0]
}

impl Record for PlanCall {
    fn refill(&mut self) {}

    fn tables(&self) -> Tables<'_> {
        Tables {
            plan: plan(self),
            ..Tables::default()
        }
    }
}

impl Record for RefineCall {
    fn refill(&mut self) {
        refill([&mut self.split]);
    }

    fn tables(&self) -> Tables<'_> {
        Tables {
            plan: plan(&self.plan),
            crossing: self.crossing.all(),
            written_bytes: self.split.all(),
            ..Tables::default()
        }
    }
}

impl Record for GridCall {
    fn refill(&mut self) {
        refill([&mut self.cells, &mut self.triples, &mut self.points]);
        refill([&mut self.work]);
    }

    fn tables(&self) -> Tables<'_> {
        Tables {
            plan: plan(&self.plan),
            crossing: self.split.all(),
            written: [&self.cells, &self.triples, &self.points].map(Lent::all),
            written_longs: self.work.all(),
            ..Tables::default()
        }
    }
}

impl Record for RepresentativesCall {
    fn refill(&mut self) {
        refill([&mut self.numbers, &mut self.centroids, &mut self.work]);
    }

    fn tables(&self) -> Tables<'_> {
        Tables {
            points: self.input.points.all(),
            cells: self.input.cells.all(),
            crossing: self.crossing.all(),
            written: [&self.numbers, &self.centroids, &self.work].map(Lent::all),
            ..Tables::default()
        }
    }
}

impl Record for KeepCall {
    fn refill(&mut self) {
        refill([&mut self.kept_points, &mut self.kept_cells, &mut self.work]);
    }

    /// Crust stands on the tape with an empty probe table.
    fn tables(&self) -> Tables<'_> {
        Tables {
            plan: size(self.c),
            points: self.input.points.all(),
            cells: self.input.cells.all(),
            crossing: self.crossing.all(),
            probe: self.probe.as_ref().map_or(&[][..], Lent::all).into(),
            written: [&self.kept_points, &self.kept_cells, &self.work].map(Lent::all),
            ..Tables::default()
        }
    }
}

impl Record for MarksCall {
    fn refill(&mut self) {
        refill([&mut self.marks]);
        refill([&mut self.work]);
    }

    fn tables(&self) -> Tables<'_> {
        Tables {
            plan: size(self.c),
            points: self.input.points.all(),
            cells: self.input.cells.all(),
            crossing: self.crossing.all(),
            probe: self.probe.all().into(),
            written: [self.work.all(), &[], &[]],
            written_bytes: self.marks.all(),
            ..Tables::default()
        }
    }
}

impl Record for CoverageCall {
    fn refill(&mut self) {}

    /// The totals stand on the tape where others have a probe table.
    fn tables(&self) -> Tables<'_> {
        let totals = five(&self.totals).map(u64::to_le_bytes);
        Tables {
            points: self.triples.all(),
            cells: self.cells.all(),
            crossing: self.marks.all(),
            probe: totals.concat().into(),
            ..Tables::default()
        }
    }
}

impl Record for ComponentsCall {
    fn refill(&mut self) {
        refill([&mut self.numbers, &mut self.work]);
    }

    fn tables(&self) -> Tables<'_> {
        Tables {
            points: self.input.points.all(),
            cells: self.input.cells.all(),
            written: [self.numbers.all(), self.work.all(), &[]],
            ..Tables::default()
        }
    }
}

impl Record for OnePieceCall {
    fn refill(&mut self) {
        refill([&mut self.work]);
    }

    fn tables(&self) -> Tables<'_> {
        Tables {
            points: self.input.points.all(),
            cells: self.input.cells.all(),
            written: [self.work.all(), &[], &[]],
            ..Tables::default()
        }
    }
}

impl Record for WriteCall {
    fn refill(&mut self) {
        refill([&mut self.file]);
        refill([&mut self.work]);
    }

    fn tables(&self) -> Tables<'_> {
        Tables {
            points: self.input.points.all(),
            cells: self.input.cells.all(),
            written: [self.work.all(), &[], &[]],
            written_bytes: self.file.all(),
            ..Tables::default()
        }
    }
}

impl Record for ReadCall {
    fn refill(&mut self) {
        refill([&mut self.points, &mut self.cells, &mut self.work]);
    }

    fn tables(&self) -> Tables<'_> {
        Tables {
            crossing: self.file.all(),
            written: [&self.points, &self.cells, &self.work].map(Lent::all),
            ..Tables::default()
        }
    }
}
