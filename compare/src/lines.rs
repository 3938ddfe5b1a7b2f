//! Lines of a text: the words of each, and errors that name it.

/// A line that has words, and its number.
pub struct Line<'a> {
    number: usize,
    text: &'a str,
    pub words: Vec<&'a str>,
}

impl<'a> Line<'a> {
    fn read(number: usize, text: &'a str) -> Option<Line<'a>> {
        let words: Vec<&str> = text.split('#').next().unwrap_or("").split_whitespace().collect();
        (!words.is_empty()).then_some(Line { number, text: text.trim(), words })
    }

    /// The error that the line is not what was expected.
    pub fn wrong<T>(&self, expected: &str) -> Result<T, String> {
        Err(format!("line {}: expected {expected}, found `{}`", self.number, self.text))
    }
}

/// The lines of a text that have words; what follows a `#` is ignored.
pub fn lines(text: &str) -> impl Iterator<Item = Line<'_>> {
    (1..).zip(text.lines()).filter_map(|(number, text)| Line::read(number, text))
}

/// The error that a text ends where more was expected.
pub fn ended<T>(text: &str, expected: &str) -> Result<T, String> {
    Err(format!("line {}: expected {expected}, found the end of the text", text.lines().count() + 1))
}

/// The number of posts that the first line of a text gives.
pub fn posts(text: &str, first: Option<Line>) -> Result<usize, String> {
    const EXPECTED: &str = "`posts N` with N from 1 to 256";
    let Some(line) = first else {
        return ended(text, EXPECTED);
    };
    match (line.words[0], numbers(&line.words[1..], 1, 256).as_deref()) {
        ("posts", Some(&[n])) => Ok(n),
        _ => line.wrong(EXPECTED),
    }
}

/// The numbers after a line's word, each within its range; `None` where they are not these.
pub fn numbers(words: &[&str], low: usize, high: usize) -> Option<Vec<usize>> {
    words.iter().map(|word| word.parse().ok().filter(|number| (low..=high).contains(number))).collect()
}
