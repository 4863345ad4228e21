//! Numbers as people read them.

use sporeferry::Pieces;

/// A count with a comma after every third digit from the end.
pub fn grouped(count: impl TryInto<u64>) -> String {
    let digits = count.try_into().unwrap_or(u64::MAX).to_string();
    let mut text = String::new();
    for (place, digit) in digits.chars().enumerate() {
        if place > 0 && (digits.len() - place) % 3 == 0 {
            text.push(',');
        }
        text.push(digit);
    }
    text
}

/// In how many pieces a mesh is, by vertices too where that differs.
pub fn pieces_in_words(pieces: &Pieces) -> String {
    let by_vertices = grouped(pieces.by_vertices);
    match pieces.by_faces {
        Some(count) if count == pieces.by_vertices => by_vertices,
        Some(count) => format!(
            "{} by faces, joined only at a vertex or an edge: no load passes; {by_vertices} by vertices",
            grouped(count)
        ),
        None => format!("{by_vertices} by vertices; none are told by faces: a cell names one point twice"),
    }
}

/// A measure with six digits.
pub fn measure(value: f64) -> String {
    if value != 0.0 && !(1e-3..1e9).contains(&value.abs()) {
        return format!("{value:.5e}");
    }
    let whole = value.abs().max(1.0).log10().floor() as usize;
    format!("{value:.*}", 5usize.saturating_sub(whole))
}

/// A number of bytes, to three digits or so.
pub fn bytes_in_words(bytes: u64) -> String {
    match bytes {
        0..10_000_000 => format!("{:.1} MB", bytes as f64 / 1e6),
        10_000_000..1_000_000_000 => format!("{} MB", bytes / 1_000_000),
        _ => format!("{:.1} GB", bytes as f64 / 1e9),
    }
}

#[cfg(test)]
mod tests {
    use super::*;

    #[test]
    fn counts_are_grouped_by_three() {
        let told = [0u64, 7, 999, 1_000, 12_345, 1_048_576].map(grouped);
        assert_eq!(told, ["0", "7", "999", "1,000", "12,345", "1,048,576"]);
    }

    #[test]
    fn measures_have_six_digits() {
        let told = [0.0, 0.5, -2.0, 12.3456789, 123456.7, 1e12, f64::INFINITY].map(measure);
        let expected = ["0.00000", "0.50000", "-2.00000", "12.3457", "123457", "1.00000e12", "inf"];
        assert_eq!(told, expected);
        assert_eq!(measure(f64::NAN), "NaN");
    }
}
