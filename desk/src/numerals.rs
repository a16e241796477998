//! Whole numbers and lists of them on the command line.

/// All parts of a text, each as `part` takes it, or None where one is none.
pub fn all<T>(text: &str, between: char, part: impl Fn(&str) -> Option<T>) -> Option<Vec<T>> {
    text.split(between).map(part).collect()
}

/// A whole number, with a minus sign or without.
pub fn number<T: std::str::FromStr>(text: &str) -> Option<T> {
    let digits = text.strip_prefix('-').unwrap_or(text);
    let whole = !digits.is_empty() && digits.bytes().all(|b| b.is_ascii_digit());
    text.parse().ok().filter(|_| whole)
}
