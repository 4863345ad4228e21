//! What was asked for on the command line.

use crate::help;
use sporeferry::advice::MOST_LEVELS;
use sporeferry::cover::Request;
use std::ffi::{OsStr, OsString};
use std::path::PathBuf;

#[derive(Debug)]
pub enum Command {
    /// Print this text.
    Say(String),
    Cover(CoverOrder),
    Coverage(CoverageOrder),
    Advise(AdviseOrder),
    Info(InfoOrder),
    ToVtk(Files),
    ToMesh(Files),
}

/// The command, and how it is told.
#[derive(Debug)]
pub struct Asked {
    pub command: Command,
    pub quiet: bool,
}

/// The file to read, the file to write, and whether one that may not be written is replaced.
#[derive(Debug)]
pub struct Files {
    pub input: PathBuf,
    pub output: PathBuf,
    pub force: bool,
}

/// A part, and what is done to it before anything else.
#[derive(Debug)]
pub struct PartOrder {
    pub file: PathBuf,
    pub weld: Option<f32>,
    pub move_to_origin: bool,
}

#[derive(Debug)]
pub struct CoverOrder {
    pub part: PartOrder,
    pub request: Request,
    pub output: PathBuf,
    pub force: bool,
    pub json: bool,
}

/// Parts that are covered alike.
#[derive(Debug)]
pub struct CoverageOrder {
    pub parts: Vec<PartOrder>,
    pub request: Request,
    pub json: bool,
}

#[derive(Debug)]
pub struct AdviseOrder {
    pub part: PartOrder,
    pub json: bool,
}

#[derive(Debug)]
pub struct InfoOrder {
    pub file: PathBuf,
    pub json: bool,
}

/// The command, or a sentence that says what is wrong with the words.
pub fn parse(words: impl Iterator<Item = OsString>) -> Result<Asked, String> {
    let words: Vec<OsString> = words.collect();
    if words.iter().any(|word| word == "--version") {
        return Ok(say(format!("sporeferry {}\n", help::VERSION)));
    }
    let Some((command, rest)) = words.split_first() else {
        return Err("a command is missing".into());
    };
    if command == "help" {
        return helped(rest).map(say);
    }
    if words.iter().any(|word| word == "--help" || word == "-h") {
        let own = command.to_str().and_then(help::about);
        return Ok(say(own.map_or_else(help::all, String::from)));
    }
    understood(command, rest)
}

fn say(text: String) -> Asked {
    Asked { command: Command::Say(text), quiet: false }
}

fn helped(words: &[OsString]) -> Result<String, String> {
    match words {
        [] => Ok(help::all()),
        [word] if word == "man" => Ok(help::manual()),
        [word, ..] => match word.to_str().and_then(help::about) {
            Some(text) => Ok(text.into()),
            None => Err(format!("there is no command {}", word.display())),
        },
    }
}

type Reader = fn(&mut Given) -> Result<Command, String>;

fn understood(command: &OsStr, words: &[OsString]) -> Result<Asked, String> {
    let (name, read): (_, Reader) = match command.to_str() {
        Some("cover") => ("cover", |given| cover(given).map(Command::Cover)),
        Some("coverage") => ("coverage", |given| coverage(given).map(Command::Coverage)),
        Some("advise") => ("advise", |given| advise(given).map(Command::Advise)),
        Some("info") => ("info", |given| info(given).map(Command::Info)),
        Some("vtk") => ("vtk", |given| files(given).map(Command::ToVtk)),
        Some("mesh") => ("mesh", |given| files(given).map(Command::ToMesh)),
        _ => return Err(format!("there is no command {}", command.display())),
    };
    let mut given = Given::new(name, words)?;
    let quiet = given.flag("--quiet")?;
    let command = read(&mut given)?;
    given.all_taken()?;
    Ok(Asked { command, quiet })
}

fn cover(given: &mut Given) -> Result<CoverOrder, String> {
    let request = request(given)?;
    let output = given.output()?;
    Ok(CoverOrder {
        force: given.flag("--force")?,
        json: given.flag("--json")?,
        part: part(given)?,
        output: output.ok_or("cover needs -o and the mesh file to write")?,
        request: request?,
    })
}

/// What is asked of a cover; the cell size is missed last, after the files.
fn request(given: &mut Given) -> Result<Result<Request, String>, String> {
    let cell = given.size("--cell")?;
    let levels = given.value("--levels")?.map(|word| levels(&word)).transpose()?;
    let (crust, allow_dropped) = (given.flag("--crust")?, given.flag("--allow-dropped")?);
    let cell = cell.ok_or(format!("{} needs --cell and the cell size", given.command));
    let levels = levels.unwrap_or(0);
    Ok(cell.map(|cell| Request { cell, levels, crust, allow_dropped, ..Request::default() }))
}

fn coverage(given: &mut Given) -> Result<CoverageOrder, String> {
    let request = request(given)?;
    let (weld, move_to_origin) = (given.size("--weld")?, given.flag("--move-to-origin")?);
    let json = given.flag("--json")?;
    let part = |file: &OsString| PartOrder { file: file.into(), weld, move_to_origin };
    let parts: Vec<PartOrder> = given.files.iter().map(part).collect();
    match parts.is_empty() {
        true => Err("coverage needs an STL file".into()),
        false => Ok(CoverageOrder { parts, request: request?, json }),
    }
}

fn part(given: &mut Given) -> Result<PartOrder, String> {
    Ok(PartOrder {
        weld: given.size("--weld")?,
        move_to_origin: given.flag("--move-to-origin")?,
        file: given.file("an STL file")?,
    })
}

fn levels(word: &OsStr) -> Result<u32, String> {
    let levels = word.to_str().and_then(|word| word.parse().ok());
    levels.filter(|levels| *levels <= MOST_LEVELS).ok_or_else(|| {
        format!("{} is no value for --levels: it takes 0 to {MOST_LEVELS}", word.display())
    })
}

fn advise(given: &mut Given) -> Result<AdviseOrder, String> {
    Ok(AdviseOrder { json: given.flag("--json")?, part: part(given)? })
}

fn info(given: &mut Given) -> Result<InfoOrder, String> {
    Ok(InfoOrder { json: given.flag("--json")?, file: given.file("a mesh file")? })
}

fn files(given: &mut Given) -> Result<Files, String> {
    let output = given.output()?;
    Ok(Files {
        force: given.flag("--force")?,
        input: given.file("a file to read")?,
        output: output
            .ok_or_else(|| format!("{} needs -o and the file to write", given.command))?,
    })
}

/// The words behind a command: options with their values, and files.
struct Given {
    command: &'static str,
    options: Vec<(String, Option<OsString>)>,
    files: Vec<OsString>,
}

/// Options that a value follows.
const WITH_VALUE: [&str; 4] = ["--cell", "--levels", "--weld", "-o"];

impl Given {
    fn new(command: &'static str, words: &[OsString]) -> Result<Self, String> {
        let mut given = Given { command, options: Vec::new(), files: Vec::new() };
        let mut words = words.iter();
        while let Some(word) = words.next() {
            if !is_option(word) {
                given.files.push(word.clone());
                continue;
            }
            let text = word.to_str().ok_or_else(|| given.unknown(&word.to_string_lossy()))?;
            let (name, behind) = match text.split_once('=') {
                Some((name, value)) => (name, Some(value.into())),
                None => (text, None),
            };
            let value = match WITH_VALUE.contains(&name) && behind.is_none() {
                true => Some(words.next().ok_or(format!("{name} needs a value"))?.clone()),
                false => behind,
            };
            given.options.push((name.to_string(), value));
        }
        Ok(given)
    }

    /// Takes an option; twice is too often.
    fn option(&mut self, name: &str) -> Result<Option<Option<OsString>>, String> {
        let Some(place) = self.options.iter().position(|(own, _)| own == name) else {
            return Ok(None);
        };
        let (_, value) = self.options.remove(place);
        match self.options.iter().any(|(own, _)| own == name) {
            true => Err(format!("{name} is given twice")),
            false => Ok(Some(value)),
        }
    }

    fn flag(&mut self, name: &str) -> Result<bool, String> {
        match self.option(name)? {
            Some(Some(value)) => Err(format!("{name} takes no value, not {}", value.display())),
            given => Ok(given.is_some()),
        }
    }

    fn value(&mut self, name: &str) -> Result<Option<OsString>, String> {
        Ok(self.option(name)?.flatten())
    }

    /// A length above 0.
    fn size(&mut self, name: &str) -> Result<Option<f32>, String> {
        let Some(word) = self.value(name)? else {
            return Ok(None);
        };
        let number = word.to_str().and_then(|word| word.parse::<f32>().ok());
        let size = number.filter(|size| size.is_finite() && *size > 0.0);
        size.map(Some).ok_or_else(|| {
            format!("{} is no value for {name}: it takes a size above 0", word.display())
        })
    }

    fn output(&mut self) -> Result<Option<PathBuf>, String> {
        match self.value("-o")? {
            Some(file) if file == "-" => {
                Err("-o takes the name of a file, not -: a file is written whole or not at all, \
                     and standard output cannot be taken back"
                    .into())
            }
            file => Ok(file.map(PathBuf::from)),
        }
    }

    /// The one file that is read.
    fn file(&mut self, what: &str) -> Result<PathBuf, String> {
        match self.files.as_slice() {
            [file] => Ok(file.into()),
            [] => Err(format!("{} needs {what}", self.command)),
            _ => Err(format!("{} takes one file to read", self.command)),
        }
    }

    fn all_taken(&self) -> Result<(), String> {
        self.options.first().map_or(Ok(()), |(name, _)| Err(self.unknown(name)))
    }

    fn unknown(&self, option: &str) -> String {
        format!("{} has no option {option}", self.command)
    }
}

fn is_option(word: &OsStr) -> bool {
    word.as_encoded_bytes().starts_with(b"-") && word != "-"
}

#[cfg(test)]
mod tests {
    use super::*;

    fn parsed(words: &str) -> Result<Command, String> {
        parse(words.split_whitespace().map(OsString::from)).map(|asked| asked.command)
    }

    #[test]
    fn a_whole_cover_command_is_understood_in_any_order() {
        for words in [
            "cover a.stl --cell 2.5 --levels 3 --crust -o a.mesh --weld 0.1 --force",
            "cover --crust -o a.mesh --levels=3 --weld=0.1 a.stl --force --cell=2.5",
        ] {
            let Ok(Command::Cover(order)) = parsed(words) else {
                panic!("{words} was not understood");
            };
            assert_eq!((order.part.file, order.output), ("a.stl".into(), "a.mesh".into()));
            assert_eq!((order.request.cell, order.request.levels), (2.5, 3));
            assert!(order.request.crust && order.force && !order.request.allow_dropped);
            assert_eq!((order.part.weld, order.part.move_to_origin), (Some(0.1), false));
        }
    }

    #[test]
    fn what_may_be_left_out_is() {
        let Ok(Command::Cover(order)) = parsed("cover a.stl --cell 1 -o b") else {
            panic!("not understood");
        };
        assert_eq!((order.request.levels, order.request.crust, order.json), (0, false, false));
        assert!(parse(["info", "a", "--quiet"].map(OsString::from).into_iter()).unwrap().quiet);
    }

    #[test]
    fn what_is_missing_doubled_or_unknown_is_said() {
        for (words, sentence) in [
            ("", "a command is missing"),
            ("smooth", "there is no command smooth"),
            ("help smooth", "there is no command smooth"),
            ("vtk a.mesh", "vtk needs -o and the file to write"),
            ("mesh a.vtk -o", "-o needs a value"),
            ("mesh -o b", "mesh needs a file to read"),
            ("cover --cell 1 -o b", "cover needs an STL file"),
            ("cover a.stl --cell 1", "cover needs -o and the mesh file to write"),
            ("cover a.stl -o b", "cover needs --cell and the cell size"),
            ("cover a.stl -o b --cell", "--cell needs a value"),
            ("cover a.stl -o b --cell 1 --cell 2", "--cell is given twice"),
            ("cover a.stl c.stl -o b --cell 1", "cover takes one file to read"),
            ("cover a.stl -o b --cell 1 --fast", "cover has no option --fast"),
            ("cover a.stl -o b --cell 1 --crust=yes", "--crust takes no value, not yes"),
            ("coverage --cell 1", "coverage needs an STL file"),
            ("coverage a.stl b.stl", "coverage needs --cell and the cell size"),
            ("info", "info needs a mesh file"),
            ("info a b", "info takes one file to read"),
            ("info a --all", "info has no option --all"),
        ] {
            assert_eq!(parsed(words).err().as_deref(), Some(sentence), "{words}");
        }
    }

    #[test]
    fn values_out_of_range_are_said_alike() {
        for words in
            ["--cell 0", "--cell -3", "--cell x", "--cell nan", "--cell=inf", "--cell 1e99"]
        {
            let told = parsed(&format!("cover a.stl -o b {words}")).unwrap_err();
            assert!(told.ends_with("is no value for --cell: it takes a size above 0"), "{told}");
        }
        for words in ["--levels 6", "--levels -1", "--levels 1.5", "--levels two"] {
            let told = parsed(&format!("cover a.stl -o b --cell 1 {words}")).unwrap_err();
            assert!(told.ends_with("is no value for --levels: it takes 0 to 5"), "{told}");
        }
        let told = parsed("cover a.stl --cell 1 -o -").unwrap_err();
        assert!(told.starts_with("-o takes the name of a file, not -"));
    }

    #[test]
    fn coverage_takes_as_many_parts_as_are_named() {
        let Ok(Command::Coverage(order)) = parsed("coverage a.stl --cell 2 b.stl --levels 1")
        else {
            panic!("not understood");
        };
        let files: Vec<PathBuf> = order.parts.into_iter().map(|part| part.file).collect();
        assert_eq!(files, [PathBuf::from("a.stl"), PathBuf::from("b.stl")]);
        assert_eq!((order.request.cell, order.request.levels, order.json), (2.0, 1, false));
    }

    #[test]
    fn files_are_understood_in_either_order() {
        for words in ["vtk a.mesh -o a.vtk", "vtk -o a.vtk a.mesh"] {
            let Ok(Command::ToVtk(files)) = parsed(words) else {
                panic!("{words} was not understood");
            };
            assert_eq!((files.input, files.output), ("a.mesh".into(), "a.vtk".into()));
        }
        assert!(matches!(parsed("mesh a.vtk -o b"), Ok(Command::ToMesh(_))));
    }

    #[test]
    fn help_is_given_wherever_it_is_asked_for() {
        let said = |words: &str| match parsed(words) {
            Ok(Command::Say(text)) => text,
            other => panic!("{words} gave {other:?}"),
        };
        assert_eq!(said("--help"), help::all());
        assert_eq!((said("-h"), said("help")), (help::all(), help::all()));
        for words in ["cover --help", "help cover", "cover a.stl --cell x -h"] {
            assert!(said(words).starts_with("  sporeferry cover PART.stl"), "{words}");
        }
        assert!(said("help man").starts_with(".TH SPOREFERRY 1"));
        assert_eq!(said("--version"), format!("sporeferry {}\n", help::VERSION));
    }
}
