//! Files that a text is put together from: `include "FILE"` puts the lines of another file in its place, once.

use crate::encoding;
use crate::errors::{Source, Span, TextError};
use std::path::{Component, Path, PathBuf};

/// How deep files may include one another.
const DEEPEST: usize = 16;

/// The lines put together so far.
pub struct Loader {
    source: Source,
    taken: Vec<PathBuf>,
    errors: Vec<TextError>,
}

impl Loader {
    /// Nothing yet; errors without a line speak of this name.
    pub fn new(name: &str) -> Loader {
        Loader {
            source: Source::empty(name),
            taken: Vec::new(),
            errors: Vec::new(),
        }
    }

    /// Adds the lines of a text; files that it includes are looked for from its folder on.
    pub fn add(&mut self, name: &str, text: &str) {
        self.taken.push(same(Path::new(name)));
        self.lines(name, text, 0);
    }

    /// The lines, or what could not be included.
    pub fn finish(self) -> Result<Source, (Source, Vec<TextError>)> {
        match self.errors.is_empty() {
            true => Ok(self.source),
            false => Err((self.source, self.errors)),
        }
    }

    fn lines(&mut self, name: &str, text: &str, depth: usize) {
        let file = self.source.file(name);
        for (i, line) in text.lines().enumerate() {
            let said = included(line);
            // The line stays in place of what it includes where that fails, and is blank where it does not.
            self.source.push(file, i + 1, line);
            let at = self.source.lines.len() - 1;
            match said.map(|said| self.include(name, said, at, depth)) {
                None => {}
                Some(Ok(())) => self.source.lines[at].clear(),
                Some(Err(error)) => self.errors.push(error),
            }
        }
    }

    fn include(
        &mut self,
        from: &str,
        said: Result<(&str, usize), usize>,
        line: usize,
        depth: usize,
    ) -> Result<(), TextError> {
        let place = |(start, end): (usize, usize)| Span { line, start, end };
        let (file, start) = said.map_err(|end| {
            let expected = "expected a file's name in double quotes and the end of the line";
            let message = "`include` names no file";
            TextError::new(place((end - "include".len(), end)), message, expected)
        })?;
        let span = place((start, start + file.chars().count() + 2));
        let path = match Path::new(from).parent() {
            Some(folder) if from != "<stdin>" => joined(folder, Path::new(file)),
            _ => PathBuf::from(file),
        };
        if self.taken.contains(&same(&path)) {
            return Ok(());
        }
        if depth == DEEPEST {
            let message = "too many files one within another";
            return Err(TextError::new(span, message, "not included"));
        }
        let (name, text) = (path.display().to_string(), read(&path, span)?);
        self.taken.push(same(&path));
        self.lines(&name, &text, depth + 1);
        Ok(())
    }
}

/// The text of a file, or the error at the place that names it.
fn read(path: &Path, span: Span) -> Result<String, TextError> {
    let failed = |said: String, expected: &str| {
        TextError::new(span, format!("{}: {said}", path.display()), expected)
    };
    let no_file = "expected a file, as seen from this one's folder";
    let bytes = std::fs::read(path).map_err(|e| failed(e.to_string(), no_file))?;
    encoding::text(bytes).map_err(|said| failed(said, "expected the name of a text"))
}

/// A path as seen from a folder; `..` goes out of a folder that the path names.
fn joined(folder: &Path, path: &Path) -> PathBuf {
    let mut joined = folder.to_path_buf();
    for part in path.components() {
        match (part, joined.components().next_back()) {
            (Component::ParentDir, Some(Component::Normal(_))) => drop(joined.pop()),
            _ => joined.push(part),
        }
    }
    joined
}

/// A path under which a file is known whatever way leads to it.
fn same(path: &Path) -> PathBuf {
    std::fs::canonicalize(path).unwrap_or_else(|_| path.to_path_buf())
}

/// If a line is an `include`: the file's name and the column of its quote, or the column after the word where no name follows.
fn included(line: &str) -> Option<Result<(&str, usize), usize>> {
    let rest = line.trim_start().strip_prefix("include")?;
    if rest.starts_with(|c: char| !c.is_whitespace() && c != '"') {
        return None;
    }
    let column = |rest: &str| line.chars().count() - rest.chars().count();
    let quoted = rest.trim_start();
    let end = column(rest);
    let name = quoted.strip_prefix('"').and_then(|q| q.split_once('"'));
    Some(match name {
        Some((name, after))
            if after.trim_start().is_empty() || after.trim_start().starts_with('#') =>
        {
            Ok((name, column(quoted)))
        }
        _ => Err(end),
    })
}
