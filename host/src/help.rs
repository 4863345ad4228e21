//! The words of `--help`, of `help COMMAND` and of the manual page, all from the files in `help/`.

/// Each text under the command it speaks of, in the order of the whole.
const TEXTS: [(&str, &str); 9] = [
    ("", include_str!("../help/1-tool.txt")),
    ("cover", include_str!("../help/2-cover.txt")),
    ("coverage", include_str!("../help/3-coverage.txt")),
    ("advise", include_str!("../help/4-advise.txt")),
    ("info", include_str!("../help/5-info.txt")),
    ("vtk", include_str!("../help/6-vtk.txt")),
    ("mesh", include_str!("../help/7-mesh.txt")),
    ("help", include_str!("../help/8-help.txt")),
    ("", include_str!("../help/9-status.txt")),
];

pub const VERSION: &str = env!("CARGO_PKG_VERSION");

pub fn all() -> String {
    TEXTS.map(|(_, text)| text).join("\n")
}

/// What concerns one command.
pub fn about(command: &str) -> Option<&'static str> {
    let of = |(name, _): &&(&str, &str)| !name.is_empty() && *name == command;
    TEXTS.iter().find(of).map(|(_, text)| *text)
}

/// The manual page.
pub fn manual() -> String {
    let (first, last) = (TEXTS[0].1, TEXTS[TEXTS.len() - 1].1);
    let mut page = format!(".TH SPOREFERRY 1 \"\" \"sporeferry {VERSION}\"\n.SH NAME\n");
    page += &format!("sporeferry \\- {}", first.trim_start_matches("sporeferry "));
    page += ".SH COMMANDS\n";
    for (_, text) in &TEXTS[1..TEXTS.len() - 1] {
        page += &format!(".nf\n{}.fi\n.PP\n", escaped(text));
    }
    page + ".SH NOTES\n.nf\n" + &escaped(last) + ".fi\n"
}

/// Letters that mean something to roff made plain.
fn escaped(text: &str) -> String {
    text.replace('\\', "\\e").replace('-', "\\-").replace('"', "\\(dq")
}
