//! Texts with the places of their lines. A text that includes others has the lines of all of them, and each line knows its file.

/// A text with the names under which errors speak of its lines.
#[derive(Clone, Debug)]
pub struct Source {
    /// The file's name, or `<stdin>`.
    pub name: String,
    /// The text, line by line, without line ends.
    pub lines: Vec<String>,
    /// For each line the name of its file and its number there, from 1 on.
    origins: Vec<(usize, usize)>,
    /// The names of the files.
    files: Vec<String>,
}

impl Source {
    /// A source with this name and text.
    pub fn new(name: &str, text: &str) -> Source {
        let mut source = Source::empty(name);
        let file = source.file(name);
        for (i, line) in text.lines().enumerate() {
            source.push(file, i + 1, line);
        }
        source
    }

    /// A source without lines.
    pub fn empty(name: &str) -> Source {
        Source {
            name: name.to_string(),
            lines: Vec::new(),
            origins: Vec::new(),
            files: Vec::new(),
        }
    }

    /// A further file, by its number.
    pub fn file(&mut self, name: &str) -> usize {
        self.files.push(name.to_string());
        self.files.len() - 1
    }

    /// A further line of a file.
    pub fn push(&mut self, file: usize, number: usize, line: &str) {
        self.lines.push(line.to_string());
        self.origins.push((file, number));
    }

    /// The file of a line, and the line's number in it.
    pub fn place(&self, line: usize) -> (&str, usize) {
        match self.origins.get(line) {
            Some((file, number)) => (&self.files[*file], *number),
            None => (&self.name, line + 1),
        }
    }

    /// How an error in one line speaks of another: by its number, and by its file where that is another.
    pub fn line_name(&self, line: usize, from: usize) -> String {
        let (file, number) = self.place(line);
        match file == self.place(from).0 {
            true => format!("line {number}"),
            false => format!("line {number} of {file}"),
        }
    }
}

/// Characters of one line: line and columns count from 0, the end is exclusive.
#[derive(Clone, Copy, Debug, Default, PartialEq, Eq)]
pub struct Span {
    /// The line.
    pub line: usize,
    /// The first column, in characters.
    pub start: usize,
    /// The column after the last.
    pub end: usize,
}

impl Span {
    /// From the start of this span to the end of another on the same line; this span if the other is on another line.
    pub fn to(self, other: Span) -> Span {
        if self.line == other.line && other.end > self.start {
            Span {
                end: other.end,
                ..self
            }
        } else {
            self
        }
    }
}
