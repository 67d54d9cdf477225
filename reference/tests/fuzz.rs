//! The fuzzer of `fuzz/` builds over the archive and finds nothing in a short run.

use reference::random::seed;
use reference::run::say;
use std::path::Path;
use std::process::{Command, Output};

fn output_of(command: &mut Command) -> Output {
    command.output().expect("it starts")
}

fn expect_success(output: &Output) {
    let messages = String::from_utf8_lossy(&output.stderr);
    assert!(output.status.success(), "{}\n{messages}", output.status);
}

/// Whether there is a clang that links libFuzzer and its sanitizers.
fn clang_links_a_fuzzer(folder: &Path) -> bool {
    let source = folder.join("probe.c");
    std::fs::write(&source, "int LLVMFuzzerTestOneInput(void) { return 0; }").expect("it writes");
    Command::new("clang")
        .arg("-fsanitize=fuzzer,address,undefined")
        .arg(&source)
        .arg("-o")
        .arg(folder.join("probe"))
        .output()
        .is_ok_and(|output| output.status.success())
}

#[test]
fn a_short_run_finds_nothing() {
    let folder = Path::new(env!("CARGO_TARGET_TMPDIR"));
    if !clang_links_a_fuzzer(folder) {
        say(format_args!("fuzz: left out: no clang with libFuzzer"));
        return;
    }
    let scripts = Path::new(env!("CARGO_MANIFEST_DIR")).join("../fuzz");
    let (fuzzer, seeds) = (folder.join("fuzzer"), folder.join("seeds"));
    expect_success(&output_of(
        Command::new(scripts.join("build"))
            .arg(env!("HIWENOKA_ARCHIVE"))
            .arg(&fuzzer),
    ));
    // The fuzzer adds to them: what an earlier run found is left behind.
    let _ = std::fs::remove_dir_all(&seeds);
    expect_success(&output_of(Command::new(scripts.join("seeds")).arg(&seeds)));
    let run = output_of(
        Command::new(fuzzer)
            .args(["-runs=100000", "-max_len=16399", "-timeout=10"])
            .arg("-detect_leaks=0")
            .arg(format!("-dict={}", scripts.join("newick.dict").display()))
            .arg(format!("-seed={}", seed() as u32))
            .arg(format!("-artifact_prefix={}/", folder.display()))
            .arg(&seeds),
    );
    expect_success(&run);
    let messages = String::from_utf8_lossy(&run.stderr);
    let done = messages.lines().find(|line| line.starts_with("Done"));
    say(format_args!("fuzz: {}", done.expect("it ends by itself")));
}
