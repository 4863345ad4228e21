//! `compare`: holds the library against the lifted Rust and the model of docs/RULES.md.

use oracle::steps::{self, Sizes};
use std::process::ExitCode;

const HELP: &str = "\
usage: compare [--seed N] [--steps STEP,STEP..] [--long] [--scale F]

  --seed N     the seed of the inputs (1)
  --steps ..   some steps only
  --long       millions of plans, thousands of octrees and grids, tables at their bounds
  --scale F    F times as many inputs
";

struct Options {
    seed: u64,
    steps: Vec<String>,
    sizes: Sizes,
}

fn options(mut args: impl Iterator<Item = String>) -> Result<Options, String> {
    let mut options = Options {
        seed: 1,
        steps: steps::names().into_iter().map(String::from).collect(),
        sizes: Sizes::SHORT,
    };
    let mut scale = 1.0;
    while let Some(arg) = args.next() {
        let mut value = || args.next().ok_or(format!("{arg} wants a value"));
        match arg.as_str() {
            "--seed" => options.seed = value()?.parse().map_err(|_| "--seed wants a number")?,
            "--scale" => scale = value()?.parse().map_err(|_| "--scale wants a number")?,
            "--steps" => options.steps = value()?.split(',').map(String::from).collect(),
            "--long" => options.sizes = Sizes::LONG,
            _ => return Err(HELP.into()),
        }
    }
    let unknown = options
        .steps
        .iter()
        .find(|step| !steps::names().contains(&step.as_str()));
    if let Some(step) = unknown {
        return Err(format!(
            "no step {step}; there are {}",
            steps::names().join(", ")
        ));
    }
    options.sizes = options.sizes.scaled(scale);
    Ok(options)
}

fn main() -> ExitCode {
    let options = match options(std::env::args().skip(1)) {
        Ok(options) => options,
        Err(words) => {
            eprintln!("{words}");
            return ExitCode::from(2);
        }
    };
    let chosen: Vec<&str> = options.steps.iter().map(String::as_str).collect();
    let report = steps::run(&chosen, options.seed, &options.sizes);
    print!("seed {}\n{report}", options.seed);
    if report.differences() == 0 {
        ExitCode::SUCCESS
    } else {
        ExitCode::FAILURE
    }
}
