//! Times of the proved desk and of another, side by side in one run, printed as Markdown tables.
//!
//! `bench [--repeat N] [--only WORD] [--former FILE]`: N samples of each side for every row (default 15), and only the rows in whose name,
//! as `panel, 27; 16; step`, `growth; (16, 16, 4)` or `density; panel, 27; 3 transitions`, the word stands.
//!
//! The other is the second implementation, or the proved library as it was before a change, which FILE holds as a shared library. That is
//! made from an archive of `tools/archive` by
//!
//! ```text
//! gcc -shared -o former.so -Wl,--whole-archive libexports.a -Wl,--no-whole-archive
//! ```
//!
//! It may be from before request 107, when standings and answers had no count of lowerings: how the library answers says which, and counts
//! are then not compared.
//!
//! Where the linker places the code can alone move a ratio by a third. Less so where the functions of both archives begin at multiples of
//! 64, by `objcopy --set-section-alignment '.text.*=64' libexports.a` on copies of them; that of the linked one is in a folder which
//! KOELCHAIR_ARCHIVE names by its whole path. A shared library of the linked archive itself shows what is left of it.

mod calls;
mod cases;
mod former;
mod libraries;
mod measure;
mod random;
mod shared;
mod tables;

use former::Former;
use libraries::{Library, Second};
use std::process::exit;

const USAGE: &str = "usage: bench [--repeat N] [--only WORD] [--former FILE]
FILE is a shared library, made from the archive of another commit:
  gcc -shared -o FILE -Wl,--whole-archive libexports.a -Wl,--no-whole-archive";

fn main() {
    if let Err(message) = run() {
        eprintln!("bench: {message}\n{USAGE}");
        exit(2);
    }
}

fn run() -> Result<(), String> {
    let options = Options::read(std::env::args().skip(1))?;
    let other: Box<dyn Library> = match &options.former {
        Some(file) => Box::new(Former::load(file)?),
        None => Box::new(Second),
    };
    tables::print(&options, &*other);
    Ok(())
}

/// What is asked for on the command line.
struct Options {
    repeat: usize,
    only: String,
    former: Option<String>,
}

impl Options {
    fn read(mut words: impl Iterator<Item = String>) -> Result<Options, String> {
        let mut options = Options {
            repeat: 15,
            only: String::new(),
            former: None,
        };
        while let Some(word) = words.next() {
            let value = words.next().ok_or(format!("nothing after {word}"))?;
            match word.as_str() {
                "--repeat" => match value.parse() {
                    Ok(repeat) if repeat > 0 => options.repeat = repeat,
                    _ => return Err(format!("{value} is no number of samples")),
                },
                "--only" => options.only = value,
                "--former" => options.former = Some(value),
                _ => return Err(format!("{word} is no option")),
            }
        }
        Ok(options)
    }

    /// Whether the row with this name is asked for.
    fn wants(&self, name: &str) -> bool {
        name.contains(&self.only)
    }
}
