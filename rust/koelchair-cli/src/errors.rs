//! Errors of a text, which show the line with carets under the place.

pub use crate::source::{Source, Span};
use std::fmt::Write;

/// The most errors that are shown; the others are counted.
pub const MOST_ERRORS: usize = 20;

/// Stands in what was expected for the line that an error names besides its own; `render` puts that line's number there.
pub const OTHER_LINE: &str = "{line}";

/// Something wrong in a text: what, where, and what was expected there.
#[derive(Clone, Debug, PartialEq, Eq)]
pub struct TextError {
    /// What is wrong.
    pub message: String,
    /// Where.
    pub span: Span,
    /// What was expected; stands behind the carets.
    pub expected: String,
    /// A further line, such as a similar name.
    pub help: Option<String>,
    /// Another line that the error speaks of, in place of `OTHER_LINE`.
    pub other: Option<usize>,
}

impl TextError {
    /// An error without a further line.
    pub fn new(span: Span, message: impl Into<String>, expected: impl Into<String>) -> TextError {
        TextError {
            message: message.into(),
            span,
            expected: expected.into(),
            help: None,
            other: None,
        }
    }

    /// The same error with a further line.
    pub fn with_help(mut self, help: impl Into<String>) -> TextError {
        self.help = Some(help.into());
        self
    }

    /// The same error, which speaks of another line of the text too.
    pub fn with_other(mut self, line: usize) -> TextError {
        self.other = Some(line);
        self
    }

    /// What was expected, with the number of the other line.
    pub fn expected(&self, source: &Source) -> String {
        match self.other {
            None => self.expected.clone(),
            Some(other) => {
                let line = source.line_name(other, self.span.line);
                self.expected.replace(OTHER_LINE, &line)
            }
        }
    }

    /// The error as text, with the line it stands in.
    pub fn render(&self, source: &Source) -> String {
        let mut text = format!("error: {}\n", self.message);
        text.push_str(&marked_line(source, self.span, &self.expected(source)));
        if let Some(help) = &self.help {
            let _ = writeln!(text, "  = help: {help}");
        }
        text
    }
}

/// The first errors as text, and how many more there are.
pub fn render_all(source: &Source, errors: &[TextError]) -> String {
    let shown = errors.iter().take(MOST_ERRORS);
    let mut rendered: Vec<String> = shown.map(|e| e.render(source)).collect();
    if errors.len() > MOST_ERRORS {
        let more = errors.len() - MOST_ERRORS;
        rendered.push(format!("and {more} more errors\n"));
    }
    rendered.join("\n")
}

/// An error with the candidate nearest to a word as its further line.
pub fn with_nearest<'a>(
    error: TextError,
    word: &str,
    candidates: impl IntoIterator<Item = &'a str>,
) -> TextError {
    match nearest(word, candidates) {
        Some(near) => error.with_help(format!("a similar name is `{near}`")),
        None => error,
    }
}

/// How many characters of a line are shown at most.
const WIDEST: usize = 100;

/// What of a long line is shown: the first character, the last, and the columns of a span in it.
struct Cut {
    line: String,
    start: usize,
    end: usize,
}

/// A line cut around a span, with `…` where something was left out.
fn cut(line: &str, span: Span) -> Cut {
    let chars: Vec<char> = line.chars().collect();
    if chars.len() <= WIDEST {
        let (line, start, end) = (line.to_string(), span.start, span.end);
        return Cut { line, start, end };
    }
    let before = WIDEST / 3;
    let first = match span.start > before * 2 {
        true => (span.start - before).min(chars.len() - WIDEST),
        false => 0,
    };
    let last = (first + WIDEST).min(chars.len());
    let mark = |left_out: bool| if left_out { "…" } else { "" };
    let (front, back) = (mark(first > 0), mark(last < chars.len()));
    let shown: String = chars[first..last].iter().collect();
    let shift = |column: usize| column.min(last) - first + front.chars().count();
    Cut {
        line: format!("{front}{shown}{back}"),
        start: shift(span.start),
        end: shift(span.end),
    }
}

/// The line of a span with carets under it and a note behind them.
pub fn marked_line(source: &Source, span: Span, note: &str) -> String {
    let line = source.lines.get(span.line).map_or("", String::as_str);
    let (name, number) = source.place(span.line);
    let number = number.to_string();
    let margin = " ".repeat(number.len());
    let shown = cut(line, span);
    let padding: String = shown
        .line
        .chars()
        .chain(std::iter::repeat(' '))
        .take(shown.start)
        .map(|c| if c == '\t' { '\t' } else { ' ' })
        .collect();
    let carets = "^".repeat(shown.end.saturating_sub(shown.start).max(1));
    let mut text = String::new();
    let _ = writeln!(text, "{margin}--> {name}:{number}:{}", span.start + 1);
    let _ = writeln!(text, "{margin} |");
    let _ = writeln!(text, "{number} | {}", shown.line);
    let _ = writeln!(
        text,
        "{}",
        format!("{margin} | {padding}{carets} {note}").trim_end()
    );
    text
}

/// The candidate nearest to a word, if it is near enough to be meant.
pub fn nearest<'a>(word: &str, candidates: impl IntoIterator<Item = &'a str>) -> Option<&'a str> {
    let most = match word.chars().count() {
        0 | 1 => 0,
        2 | 3 => 1,
        _ => 2,
    };
    candidates
        .into_iter()
        .map(|c| (distance(word, c), c))
        .filter(|(d, _)| *d <= most)
        .min_by_key(|(d, _)| *d)
        .map(|(_, c)| c)
}

/// `; did you mean ...?` if a candidate is near enough.
pub fn did_you_mean<'a>(word: &str, candidates: impl IntoIterator<Item = &'a str>) -> String {
    match nearest(word, candidates) {
        Some(near) => format!("; did you mean `{near}`?"),
        None => String::new(),
    }
}

/// How many characters must be put in, taken out or replaced to turn one word into the other.
fn distance(a: &str, b: &str) -> usize {
    let b: Vec<char> = b.chars().collect();
    let mut row: Vec<usize> = (0..=b.len()).collect();
    for (i, ca) in a.chars().enumerate() {
        let mut diagonal = row[0];
        row[0] = i + 1;
        for (j, cb) in b.iter().enumerate() {
            let replaced = diagonal + usize::from(ca != *cb);
            diagonal = row[j + 1];
            row[j + 1] = replaced.min(row[j] + 1).min(diagonal + 1);
        }
    }
    row[b.len()]
}

/// How many words of a list are shown at most.
const MOST_WORDS: usize = 8;

/// Words as a list: the first few, and how many more there are.
pub fn listed<'a>(words: impl IntoIterator<Item = &'a str>) -> String {
    let words: Vec<&str> = words.into_iter().collect();
    let shown = words.iter().take(MOST_WORDS).map(|w| format!("`{w}`"));
    let shown = shown.collect::<Vec<_>>().join(", ");
    match words.len().saturating_sub(MOST_WORDS) {
        0 => shown,
        more => format!("{shown} and {more} more"),
    }
}

/// What was expected, as a list: the first few words, and how many more there are.
pub fn expected_one_of<'a>(words: impl IntoIterator<Item = &'a str>) -> String {
    let words: Vec<&str> = words.into_iter().collect();
    let shown = listed(words.iter().copied());
    match words.len() {
        0 => "there is none in this text".to_string(),
        1 => format!("expected {shown}"),
        _ => format!("expected one of {shown}"),
    }
}
