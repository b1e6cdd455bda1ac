//! Finds the archive of the proved library, or has it made, and tells cargo to link it.

use std::env;
use std::fs::OpenOptions;
use std::io::{self, BufRead, BufReader, Write};
use std::path::{Path, PathBuf};
use std::process::{exit, Command, ExitStatus, Stdio};
use std::time::Instant;

const ARCHIVE: &str = "libexports.a";

/// The script that makes the archive, in the repository's root.
const SCRIPT: &str = "tools/archive";

/// How long the proofs took where nothing was proved yet, when that was last measured. They took six to ten minutes with the kit before this one.
const TIME: &str =
    "took four minutes on four cores, with other work beside it, and takes longer on fewer";

/// A shell's exit status where a command is not found.
const NOT_FOUND: i32 = 127;

fn main() {
    println!("cargo:rerun-if-env-changed=KOELCHAIR_ARCHIVE");
    if env::var("CARGO_CFG_TARGET_ARCH").as_deref() != Ok("x86_64") {
        stop("the archive holds code for x86-64 only");
    }
    let folder = match env::var_os("KOELCHAIR_ARCHIVE") {
        Some(named) => named_folder(PathBuf::from(named)),
        None => own_folder(),
    };
    println!("cargo:rerun-if-changed={}", folder.join(ARCHIVE).display());
    println!("cargo:rustc-link-search=native={}", folder.display());
    println!("cargo:rustc-link-lib=static=exports");
}

/// The folder that the environment names; nothing is made there. Its path is whole, as this program runs in another folder than
/// the linker.
fn named_folder(folder: PathBuf) -> PathBuf {
    if !folder.is_absolute() {
        stop("KOELCHAIR_ARCHIVE has to name a folder by its whole path");
    }
    if !folder.join(ARCHIVE).is_file() {
        stop(&format!(
            "KOELCHAIR_ARCHIVE names {}, in which there is no {ARCHIVE}",
            folder.display()
        ));
    }
    folder
}

/// The repository's own folder; an archive that is not there is made.
fn own_folder() -> PathBuf {
    let root = Path::new(env!("CARGO_MANIFEST_DIR")).join("../..");
    let folder = root.join("target/staticlib");
    if !folder.join(ARCHIVE).is_file() {
        make(&root);
    }
    if !folder.join(ARCHIVE).is_file() {
        stop(&format!(
            "'{SCRIPT}' ended well and left no target/staticlib/{ARCHIVE}"
        ));
    }
    folder
}

/// Proves the library and writes its archive. Which crate is proved goes to the terminal at once, since cargo keeps what a build
/// script prints to itself.
fn make(root: &Path) {
    let mut terminal = OpenOptions::new().write(true).open("/dev/tty").ok();
    let mut say = |line: &str| {
        if let Some(terminal) = &mut terminal {
            let _ = writeln!(terminal, "\r\x1b[Kkoelchair: {line}");
        }
    };
    say(&format!(
        "there is no {ARCHIVE} yet: '{SCRIPT}' proves the library, which {TIME}"
    ));
    let start = Instant::now();
    let ran = prove(root, &mut say);
    let seconds = start.elapsed().as_secs();
    match ran {
        Ok(status) if status.success() => println!(
            "cargo:warning=the library was proved in {} min {} s; it is not proved again until {ARCHIVE} is removed",
            seconds / 60,
            seconds % 60
        ),
        Ok(status) if status.code() == Some(NOT_FOUND) => stop(&format!(
            "there is no target/staticlib/{ARCHIVE}, and 'rt', which proves the library, is not found. Make the archive by \
             '{SCRIPT}' in the repository's root on a machine with the Rattle kit, or name a folder that holds it in \
             KOELCHAIR_ARCHIVE"
        )),
        Ok(_) => stop(&format!(
            "there is no target/staticlib/{ARCHIVE}, and '{SCRIPT}', which makes it, failed"
        )),
        Err(error) => stop(&format!(
            "there is no target/staticlib/{ARCHIVE}, and '{SCRIPT}', which makes it, cannot be run ({error})"
        )),
    }
}

/// Runs the script. All that it prints goes to standard error, which cargo shows if this program fails.
fn prove(root: &Path, say: &mut impl FnMut(&str)) -> io::Result<ExitStatus> {
    let mut script = Command::new(root.join(SCRIPT))
        .stdout(Stdio::piped())
        .spawn()?;
    let said = script.stdout.take().map(BufReader::new);
    // What is said of a crate ends with its name, as in `crate exports: modules loaded=629 checked=629`, and what came of it.
    let mut name = String::new();
    for line in said.into_iter().flat_map(BufRead::lines) {
        let line = line?;
        eprintln!("{line}");
        if let Some(of) = line.strip_prefix("crate ") {
            name = of.chars().take_while(|c| *c != ':').collect();
        } else if line.starts_with("logic=proved ") {
            say(&format!("{name} is proved"));
        }
    }
    script.wait()
}

fn stop(message: &str) -> ! {
    eprintln!("koelchair: {message}");
    exit(1)
}
