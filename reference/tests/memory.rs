//! The library reads and writes nothing but what it is lent, and leaves nothing undefined that it
//! promises to write: `c/memory.c`, on guarded pages and under valgrind's memcheck. A small stack is
//! enough for it, however deep a text or a tree is and whatever the dots: `c/stack.c`.

use reference::random::seed;
use reference::run::say;
use std::ffi::OsStr;
use std::path::{Path, PathBuf};
use std::process::Command;

/// Runs a command, which must succeed, and says what it prints.
fn run(name: &str, command: &mut Command) {
    let output = command.output().expect("it starts");
    for line in String::from_utf8_lossy(&output.stdout).lines() {
        say(format_args!("memory, {name}: {line}"));
    }
    assert!(
        output.status.success(),
        "{command:?}: {}\n{}",
        output.status,
        String::from_utf8_lossy(&output.stderr)
    );
}

/// Builds the program; each test builds its own.
fn program(name: &str) -> PathBuf {
    let package = Path::new(env!("CARGO_MANIFEST_DIR"));
    let built = Path::new(env!("CARGO_TARGET_TMPDIR")).join(name);
    let mut sources: Vec<PathBuf> = std::fs::read_dir(package.join("c"))
        .expect("the folder of the program")
        .map(|entry| entry.expect("a file of the folder").path())
        .filter(|path| path.extension() == Some(OsStr::new("c")))
        .collect();
    sources.sort();
    run(
        "gcc",
        Command::new("gcc")
            .args(["-std=c11", "-Wall", "-Wextra", "-Werror", "-O1", "-g", "-I"])
            .arg(package.join("../include"))
            .args(sources)
            .arg(env!("HIWENOKA_ARCHIVE"))
            // So that the first call of a function takes no more of the stack than another.
            .arg("-Wl,-z,now")
            .arg("-o")
            .arg(&built),
    );
    built
}

fn words(way: &str, rounds: u32) -> [String; 3] {
    let seed = format!("{:#x}", seed());
    say(format_args!("memory, {way}: {rounds} rounds, seed {seed}"));
    [way.into(), rounds.to_string(), seed]
}

#[test]
fn no_page_beside_a_slice_is_accessed() {
    let program = program("memory_guarded");
    run(
        "guarded",
        Command::new(program).args(words("guarded", 6_000)),
    );
}

#[test]
fn memcheck_finds_no_error() {
    if Command::new("valgrind").arg("--version").output().is_err() {
        say(format_args!("memory, apart: left out: no valgrind"));
        return;
    }
    run(
        "apart",
        Command::new("valgrind")
            .args(["--quiet", "--error-exitcode=9", "--track-origins=no"])
            .arg("--partial-loads-ok=no")
            .args(["--leak-check=full", "--errors-for-leak-kinds=all"])
            .arg(program("memory_apart"))
            .args(words("apart", 3_000)),
    );
}

#[test]
fn a_small_stack_is_enough() {
    run("stack", Command::new(program("memory_stack")).arg("stack"));
}
