//! JSON, as much as the tool writes and reads again.

use std::fmt;

#[derive(Clone, Debug, PartialEq)]
pub enum Json {
    Null,
    Bool(bool),
    /// A number as it is written.
    Number(String),
    Text(String),
    List(Vec<Json>),
    /// Names and values in the order they were given.
    Object(Vec<(String, Json)>),
}

impl Json {
    pub fn object<const N: usize>(entries: [(&str, Json); N]) -> Json {
        Json::Object(entries.map(|(name, value)| (name.to_string(), value)).into())
    }

    pub fn list<T: Into<Json>>(values: impl IntoIterator<Item = T>) -> Json {
        Json::List(values.into_iter().map(Into::into).collect())
    }

    /// The value under a path of names.
    pub fn at(&self, path: &[&str]) -> Option<&Json> {
        path.iter().try_fold(self, |value, name| match value {
            Json::Object(entries) => entries.iter().find(|(own, _)| own == name).map(|(_, v)| v),
            _ => None,
        })
    }

    pub fn text(&self) -> Option<&str> {
        match self {
            Json::Text(text) => Some(text),
            _ => None,
        }
    }

    /// Reads a whole text; where it is no JSON, the byte at which that shows.
    pub fn parse(text: &str) -> Result<Json, usize> {
        let mut reader = Reader { text, at: 0, depth: 0 };
        let value = reader.value().ok_or(reader.at)?;
        reader.space();
        if reader.at == text.len() {
            Ok(value)
        } else {
            Err(reader.at)
        }
    }
}

macro_rules! numbers {
    ($($kind:ty)*) => {$(
        impl From<$kind> for Json {
            fn from(number: $kind) -> Json {
                let text = number.to_string();
                match text.ends_with(|last: char| last.is_ascii_digit()) {
                    true => Json::Number(text),
                    false => Json::Null,
                }
            }
        }
    )*};
}

numbers!(u32 u64 usize f32 f64);

impl From<&str> for Json {
    fn from(text: &str) -> Json {
        Json::Text(text.to_string())
    }
}

impl From<String> for Json {
    fn from(text: String) -> Json {
        Json::Text(text)
    }
}

impl From<bool> for Json {
    fn from(value: bool) -> Json {
        Json::Bool(value)
    }
}

impl<T: Into<Json>> From<Option<T>> for Json {
    fn from(value: Option<T>) -> Json {
        value.map_or(Json::Null, Into::into)
    }
}

/// Names and values each on a line of their own; lists of numbers on one.
impl fmt::Display for Json {
    fn fmt(&self, f: &mut fmt::Formatter<'_>) -> fmt::Result {
        self.write(f, 0)
    }
}

impl Json {
    fn write(&self, f: &mut fmt::Formatter<'_>, indent: usize) -> fmt::Result {
        match self {
            Json::Null => write!(f, "null"),
            Json::Bool(value) => write!(f, "{value}"),
            Json::Number(text) => write!(f, "{text}"),
            Json::Text(text) => write_text(f, text),
            Json::List(values) => {
                let flat = !values.iter().any(|value| matches!(value, Json::Object(_)));
                write_all(f, ['[', ']'], indent, flat, values, |f, value, indent| {
                    value.write(f, indent)
                })
            }
            Json::Object(entries) => {
                write_all(f, ['{', '}'], indent, false, entries, |f, (name, value), indent| {
                    write_text(f, name)?;
                    write!(f, ": ")?;
                    value.write(f, indent)
                })
            }
        }
    }
}

fn write_all<T>(
    f: &mut fmt::Formatter<'_>,
    [open, close]: [char; 2],
    indent: usize,
    flat: bool,
    entries: &[T],
    write: impl Fn(&mut fmt::Formatter<'_>, &T, usize) -> fmt::Result,
) -> fmt::Result {
    write!(f, "{open}")?;
    for (n, entry) in entries.iter().enumerate() {
        let comma = if n > 0 { "," } else { "" };
        match flat {
            true if n > 0 => write!(f, ", ")?,
            true => {}
            false => write!(f, "{comma}\n{:1$}", "", indent + 2)?,
        }
        write(f, entry, indent + 2)?;
    }
    if !flat && !entries.is_empty() {
        write!(f, "\n{:indent$}", "")?;
    }
    write!(f, "{close}")
}

fn write_text(f: &mut fmt::Formatter<'_>, text: &str) -> fmt::Result {
    write!(f, "\"")?;
    for letter in text.chars() {
        match letter {
            '"' | '\\' => write!(f, "\\{letter}")?,
            '\n' => write!(f, "\\n")?,
            control if control < ' ' => write!(f, "\\u{:04x}", control as u32)?,
            letter => write!(f, "{letter}")?,
        }
    }
    write!(f, "\"")
}

/// Values deeper than this are not read.
const DEEPEST: usize = 64;

struct Reader<'a> {
    text: &'a str,
    at: usize,
    depth: usize,
}

impl Reader<'_> {
    fn rest(&self) -> &str {
        &self.text[self.at..]
    }

    fn space(&mut self) {
        self.at = self.text.len() - self.rest().trim_start_matches([' ', '\t', '\r', '\n']).len();
    }

    /// Takes these letters, after any space.
    fn take(&mut self, word: &str) -> Option<()> {
        self.space();
        self.rest().starts_with(word).then(|| self.at += word.len())
    }

    fn value(&mut self) -> Option<Json> {
        self.space();
        match self.rest().bytes().next()? {
            b'n' => self.take("null").map(|()| Json::Null),
            b't' => self.take("true").map(|()| Json::Bool(true)),
            b'f' => self.take("false").map(|()| Json::Bool(false)),
            b'"' => self.string().map(Json::Text),
            b'[' => self.entries("[", "]", Self::value).map(Json::List),
            b'{' => self.entries("{", "}", Self::entry).map(Json::Object),
            _ => self.number(),
        }
    }

    fn entry(&mut self) -> Option<(String, Json)> {
        self.space();
        let name = self.string()?;
        self.take(":")?;
        Some((name, self.value()?))
    }

    fn entries<T>(
        &mut self,
        open: &str,
        close: &str,
        read: fn(&mut Self) -> Option<T>,
    ) -> Option<Vec<T>> {
        self.take(open)?;
        self.depth += 1;
        let mut entries = Vec::new();
        while self.depth < DEEPEST && self.take(close).is_none() {
            if !entries.is_empty() {
                self.take(",")?;
            }
            entries.push(read(self)?);
        }
        self.depth -= 1;
        (self.depth + 1 < DEEPEST).then_some(entries)
    }

    fn number(&mut self) -> Option<Json> {
        let other = |letter: char| !letter.is_ascii_digit() && !"+-.eE".contains(letter);
        let text = self.rest();
        let number = text[..text.find(other).unwrap_or(text.len())].to_string();
        number.parse::<f64>().ok()?;
        self.at += number.len();
        Some(Json::Number(number))
    }

    fn string(&mut self) -> Option<String> {
        let mut letters = self.rest().strip_prefix('"')?.char_indices();
        let mut text = String::new();
        while let Some((n, letter)) = letters.next() {
            match letter {
                '"' => {
                    self.at += n + 2;
                    return Some(text);
                }
                '\\' => text.push(escaped(&mut letters)?),
                letter => text.push(letter),
            }
        }
        None
    }
}

/// The letter that is written after a backslash.
fn escaped(letters: &mut std::str::CharIndices) -> Option<char> {
    match letters.next()?.1 {
        'n' => Some('\n'),
        't' => Some('\t'),
        'r' => Some('\r'),
        'b' => Some('\u{8}'),
        'f' => Some('\u{c}'),
        'u' => {
            let digits: String = letters.take(4).map(|(_, digit)| digit).collect();
            char::from_u32(u32::from_str_radix(&digits, 16).ok()?)
        }
        other => Some(other),
    }
}

#[cfg(test)]
mod tests {
    use super::*;

    #[test]
    fn what_is_written_is_read_again() {
        let value = Json::object([
            ("a \"name\"\n", Json::list([1u32, 2])),
            ("empty", Json::List(vec![])),
            ("none", Json::object([])),
            ("float", 0.1f32.into()),
            ("not finite", f64::NAN.into()),
            ("yes", true.into()),
            ("deep", Json::List(vec![Json::object([("é\u{1}", "\\".into())])])),
        ]);
        let text = value.to_string();
        assert_eq!(Json::parse(&text), Ok(value), "{text}");
        assert!(text.contains("\"float\": 0.1,\n") && text.contains("[1, 2]"));
        assert!(text.contains("\"not finite\": null"));
    }

    #[test]
    fn others_ways_of_writing_are_read() {
        let read = Json::parse(" {\"a\":[1e3,-2.5 ,{}],\"b\":\"\\u00e9\\/\\t\"}\n").unwrap();
        assert_eq!(read.at(&["b"]).and_then(Json::text), Some("é/\t"));
        assert_eq!(read.at(&["a", "b"]), None);
    }

    #[test]
    fn what_is_no_json_is_refused() {
        let deep = "[".repeat(10_000);
        for text in ["", "{", "[1 2]", "{\"a\"}", "nul", "1 2", "\"a", "--1", "[1,]", &deep] {
            assert!(Json::parse(text).is_err(), "{text}");
        }
    }
}
