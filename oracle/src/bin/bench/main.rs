//! `bench`: each step of the library beside the lifted Rust, in one run, on the same inputs.

mod clock;
mod inputs;
mod machine;
mod steps;
mod table;

use std::process::ExitCode;

const HELP: &str = "\
usage: bench [--small | --large] [--times N] [--steps STEP,.. | --write FILE]

  --small       inputs of up to some hundred thousand cells only
  --large       also tens of millions of cells (some 8 GB of memory)
  --times N     the least of N runs (5)
  --steps ..    the rows of these steps alone
  --write FILE  put the tables into this page, under their own heading
";

struct Options {
    reach: inputs::Reach,
    times: usize,
    steps: Vec<String>,
    write: Option<String>,
}

fn options(mut args: impl Iterator<Item = String>) -> Result<Options, String> {
    let mut options = Options {
        reach: inputs::Reach::Usual,
        times: 5,
        steps: Vec::new(),
        write: None,
    };
    while let Some(arg) = args.next() {
        match arg.as_str() {
            "--small" => options.reach = inputs::Reach::Small,
            "--large" => options.reach = inputs::Reach::Large,
            "--times" => {
                let times = args.next().and_then(|value| value.parse().ok());
                options.times = times.ok_or("--times wants a number")?;
            }
            "--steps" => {
                let steps = args.next().ok_or("--steps wants names")?;
                options.steps = steps.split(',').map(String::from).collect();
            }
            "--write" => options.write = Some(args.next().ok_or("--write wants a file")?),
            _ => return Err(HELP.into()),
        }
    }
    if options.write.is_some() && !options.steps.is_empty() {
        return Err("a page has the rows of every step".into());
    }
    Ok(options)
}

fn main() -> ExitCode {
    let words: Vec<String> = std::env::args().skip(1).collect();
    let command = [&["oracle/bench".into()], &words[..]].concat().join(" ");
    let options = match options(words.into_iter()) {
        Ok(options) => options,
        Err(words) => {
            eprintln!("{words}");
            return ExitCode::from(2);
        }
    };
    let mut table = table::Table::new(options.times, options.steps);
    steps::plans(&mut table);
    steps::contents(&mut table);
    steps::stars(&mut table);
    for input in inputs::all(options.reach) {
        steps::on_input(&input, &mut table);
    }
    let section = table.section(&command, &machine::words());
    println!("{section}");
    if let Some(file) = options.write {
        let page = std::fs::read_to_string(&file).unwrap_or_else(|_| "# Speed\n\n".into());
        if let Err(error) = std::fs::write(&file, table::replaced(&page, &section)) {
            eprintln!("{file}: {error}");
            return ExitCode::FAILURE;
        }
    }
    ExitCode::SUCCESS
}
