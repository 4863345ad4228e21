//! The tables of speeds, and the page they stand on.

use crate::clock::least;

pub struct Table {
    times: usize,
    /// The steps whose rows are wanted, or none for all.
    steps: Vec<String>,
    rows: Vec<String>,
    copies: Vec<String>,
    contents: Vec<String>,
}

fn milliseconds(time: f64) -> String {
    match time {
        t if t < 1.0 => format!("{t:.3}"),
        t if t < 100.0 => format!("{t:.1}"),
        t => format!("{t:.0}"),
    }
}

fn told(rows: &mut Vec<String>, row: String) {
    eprintln!("{row}");
    rows.push(row);
}

impl Table {
    pub fn new(times: usize, steps: Vec<String>) -> Self {
        Self {
            times,
            steps,
            rows: Vec::new(),
            copies: Vec::new(),
            contents: Vec::new(),
        }
    }

    fn wants(&self, step: &str) -> bool {
        self.steps.is_empty() || self.steps.iter().any(|wanted| wanted == step)
    }

    /// Times both sides, turn by turn, so that both meet the same machine; gives our least time.
    pub fn row(
        &mut self,
        step: &str,
        input: &str,
        size: &str,
        mut rust: impl FnMut() -> f64,
        mut ours: impl FnMut() -> f64,
    ) -> f64 {
        if !self.wants(step) {
            return f64::NAN;
        }
        let mut least_rust = f64::INFINITY;
        let least_ours = least(self.times, || {
            least_rust = least_rust.min(rust());
            ours()
        });
        let row = format!(
            "| {step} | {input} | {size} | {} | {} | {:.1} |",
            milliseconds(least_rust),
            milliseconds(least_ours),
            least_rust / least_ours
        );
        told(&mut self.rows, row);
        least_ours
    }

    /// What a file step takes in copies of the file's bytes.
    pub fn in_copies(&mut self, step: &str, input: &str, file: &FileTimes) {
        if !self.wants(step) {
            return;
        }
        let row = format!(
            "| {step} | {input} | {} | {} | {} | {:.1} |",
            file.bytes,
            milliseconds(file.copy),
            milliseconds(file.ours),
            file.ours / file.copy
        );
        told(&mut self.copies, row);
    }

    /// Ours alone, for what a table may hold.
    pub fn content(&mut self, name: &str, split: &str, ours: impl FnMut() -> f64) {
        if !self.wants("refine") {
            return;
        }
        let row = format!(
            "| {name} | {split} | {} |",
            milliseconds(least(self.times, ours))
        );
        told(&mut self.contents, row);
    }

    pub fn section(&self, command: &str, machine: &str) -> String {
        format!(
            "{HEADING}\nEach step beside the lifted Rust, made by `{command}`. Figures, not a test.\n{HOW}\n\
             Machine: {machine}. Least of {} runs.\n\n\
             {COLUMNS}{}\n{COPIES}{}\n{CONTENTS}{}\n",
            self.times,
            self.rows.join("\n"),
            self.copies.join("\n"),
            self.contents.join("\n")
        )
    }
}

/// A file step: the file's bytes in words, what copying them takes, and what the step takes.
pub struct FileTimes<'a> {
    pub bytes: &'a str,
    pub copy: f64,
    pub ours: f64,
}

/// The heading of the part of a page that is made here.
const HEADING: &str = "## Beside the lifted Rust\n";

/// A page with its part under our heading, up to the next one, made anew.
pub fn replaced(page: &str, section: &str) -> String {
    let start = page.find(HEADING).unwrap_or(page.len());
    let own = page.get(start + HEADING.len()..).unwrap_or("");
    let rest = own.find("\n## ").map_or("", |at| &own[at..]);
    format!("{}\n\n{section}{rest}", page[..start].trim_end())
}

const HOW: &str = "
- One run, one thread, the same inputs for both sides, turn by turn; release builds; CPU time of the thread.
- Ours: tables are made and filled before the first call, so their pages are there, and are lent again as the call before left them; nothing is cleared between calls. The steps zero their work themselves, inside the time taken.
- The Rust: the lifted functions of oracle/lifted (oracle/CHANGES.md), which allocate what they need inside the time taken, as the published code does; their arguments are made before. Its map is the standard one with a hasher that folds products as foldhash does.
- plan: the first row's Rust is the domain and the lattice alone, as published, which refuse nothing; the second row's is the oracle's model of the whole step, which judges refusals 1 to 4 as ours does. A plan that is refused at once tells what the call through the C boundary takes.
- refine: the Rust's refinement and `balance`, answers from a table. grid: `background_grid` of the split octree, `uniform_grid` for L 0. representatives: `flood_fill_inside`. keep: `cover_grid` with `compact`. marks: `flood_fill_inside`, and `orient_tet` of each marked cell. add_coverage: a plain loop that judges the tables and adds up. components: `connected_components`.
- The Rust has no numbering by faces. Its column for face_components and one_piece is a map from faces to cells with a quick hash, and parents of cells (`oracle/src/expected/faces.rs`). Shuffled: points renumbered and cells put in any order.
- The Rust has no file. Its column for write and read is `connected_components` and one copy of the file's bytes, the least that a writer or a reader in Rust must do.
- A shell is a sphere's surface: crossed octants, or cells with vertices on both of its sides; cells within are inside.
";

const COLUMNS: &str = "| step | input | size | Rust, ms | ours, ms | times faster |
|---|---|---|---:|---:|---:|
";

const COPIES: &str = "
### Files, in copies of their bytes

What a writer or a reader takes in all, the component numbers included, which both work out, in units of one copy of the file's bytes (`copy_from_slice`), taken turn by turn with ours.

| step | input | bytes | copy, ms | ours, ms | copies |
|---|---|---:|---:|---:|---:|
";

const CONTENTS: &str = "
### Refine, whatever the table holds

Ours alone: box all 0, c 1, L 5, 1,011,096 octants.

| crossing table | split | ms |
|---|---:|---:|
";
