//! Shared libraries that are loaded: the archive that is linked, without write, without counts, and what is none.

use super::Former;
use crate::calls::tests::{assert_alike, calls};
use crate::libraries::{compared, Given, Library};
use compare::calls::Call;
use compare::desks;
use second::Reply;
use std::path::{Path, PathBuf};
use std::process::Command;

/// A folder of this test's own, removed at its end.
struct Folder(PathBuf);

impl Folder {
    fn new(name: &str) -> Folder {
        let folder = std::env::temp_dir().join(format!("{name}-{}", std::process::id()));
        std::fs::create_dir_all(&folder).expect("a folder");
        Folder(folder)
    }

    fn file(&self, name: &str) -> String {
        self.0.join(name).display().to_string()
    }
}

impl Drop for Folder {
    fn drop(&mut self) {
        let _ = std::fs::remove_dir_all(&self.0);
    }
}

/// The archive that is linked, made into a shared library with these options more.
fn shared(folder: &Folder, options: &[&str]) -> Former {
    let shared = folder.file("former.so");
    let own = Path::new(env!("CARGO_MANIFEST_DIR")).join("../../target/staticlib");
    let archive = std::env::var_os("KOELCHAIR_ARCHIVE").map_or(own, PathBuf::from);
    let made = Command::new("cc")
        .args(["-shared", "-o", &shared, "-Wl,--whole-archive"])
        .arg(archive.join("libexports.a"))
        .arg("-Wl,--no-whole-archive")
        .args(options)
        .status();
    assert!(made.expect("cc").success());
    Former::load(&shared).expect("a shared library")
}

/// It answers as it does linked.
#[test]
fn a_shared_library_answers_alike() {
    let folder = Folder::new("koelchair-bench-shared");
    let former = shared(&folder, &[]);
    assert!(former.counts_lowerings());
    assert_alike(&former);
}

/// A library from before there was write has its other calls measured.
#[test]
fn a_shared_library_without_write() {
    let folder = Folder::new("koelchair-bench-without");
    let names = folder.file("names");
    std::fs::write(&names, "{ local: koelchair_write; };").expect("a file");
    let former = shared(&folder, &[&format!("-Wl,--version-script={names}")]);
    let calls = calls(&former);
    assert!(calls.write(1).is_none());
    assert!(calls.measure(1, &Call::Score).other > 0.0);
}

/// Standings and answers from before request 107 are read with a count of 0, which is not compared.
#[test]
fn a_shared_library_that_does_not_count() {
    let folder = Folder::new("koelchair-bench-uncounted");
    let library = folder.file("uncounted.so");
    let made = Command::new("cc")
        .args(["-shared", "-fPIC", "-o", &library])
        .arg(Path::new(env!("CARGO_MANIFEST_DIR")).join("src/former/uncounted.c"))
        .status();
    assert!(made.expect("cc").success());
    let former = Former::load(&library).expect("a shared library");
    assert!(!former.counts_lowerings());
    let mut desk = desks::zeroed();
    desk.standing.lowerings = 9;
    let opened = former.call(&mut desk, &Call::Open(vec![1]));
    let (reply, standing) = compared(opened, &desk, true);
    assert_eq!(reply, Reply::Opened);
    let (states, whole) = ((standing.states1, standing.states2), standing.second_whole);
    assert_eq!((states, whole, standing.lowerings), ((3, 4), true, 0));
    desk.standing.round = 70_000;
    desk.standing.lowerings = 9;
    let stepped = former.call(&mut desk, &Call::Step);
    let (reply, standing) = compared(stepped, &desk, true);
    let expected = |lowerings| Reply::Settled {
        round: 70_001,
        lowerings,
    };
    assert_eq!(reply, expected(0));
    assert!(standing.settled && standing.round == 70_001 && standing.lowerings == 0);
    let seen = compared(Given::Reply(expected(5)), &desk, false);
    assert_eq!(seen, (expected(0), standing));
}

#[test]
fn what_is_no_shared_library() {
    let folder = Folder::new("koelchair-bench-none");
    let file = folder.file("text");
    assert!(Former::load(&file).is_err_and(|error| error.starts_with(&file)));
    std::fs::write(&file, "no library").expect("a file");
    assert!(Former::load(&file).is_err_and(|error| error.contains(&file)));
}
