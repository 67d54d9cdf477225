//! The programs of `examples/`: each builds by the command line in its first lines and prints what it must, and the README shows the
//! two that list a sheet as they are. The header is read by a C and a C++ compiler alone.

use reference::run::say;
use reference::small_trees::{self, SmallTree};
use reference::table::NONE;
use reference::trees_of_dots::{Drawings, Found};
use std::fs::File;
use std::path::{Path, PathBuf};
use std::process::{Command, Stdio};

/// What a layout's example prints: number, level and place of each node, and the neighbours.
const LAID_OUT: &str = "0 0 0\n1 1 -3\n2 2 -7\n3 2 1\n4 1 3\n1 beside 4\n2 beside 3\n";

/// What the example of a layout for TreeTeX prints. Leaves stand 4 apart under each of the two
/// families, which start 4 apart too: their inner leaves would stand at one place, so the second
/// family moves by 4, and by the extra space. Half of 8 is 4, half of 14 is 7.
const FOR_TREETEX: &str = "\
extra 0
0 0 0
1 1 -4
2 2 -6
3 2 -2
4 1 4
5 2 2
6 2 6
extra 6
0 0 0
1 1 -7
2 2 -9
3 2 -5
4 1 7
5 2 5
6 2 9
";

/// What the example of a written sheet prints: the listing of the file.
const WRITTEN: &str = "\
sheet 6 3 4 -5 12
0 0 0 900
1 1 -5 901
2 1 5 902
3 2 -2 903
4 2 5 904
5 2 12 70000
";

/// What the example of a view prints. The nodes stand at 0, -512, -1,280, 256 and 512 across and at
/// 0, 64, 128, 128 and 64 down. Less the middle, -7,424 and 61, and divided by 8 that is 928, 864,
/// 768, 960 and 992 across, of which the last is off, and -7.625, 0.375 and twice 8.375 down.
const SHOWN: &str = "\
0 928.000 -7.625
1 864.000 0.375
2 768.000 8.375
3 960.000 8.375
refused 18
";

/// What the example of the small trees prints: the table of each family of five. Their levels are
/// 01111, 01112, 01121, 01122, 01123, 01211, 01212, 01221, 01222, 01223, 01231, 01232, 01233 and
/// 01234.
const FAMILIES: &str = "\
0: 1 - - 2 - 3 - 4 - -
1: 1 - - 2 - 3 4 - - -
2: 1 - - 2 3 4 - - - -
3: 1 - - 2 3 - - 4 - -
4: 1 - - 2 3 - 4 - - -
5: 1 - 2 3 - - - 4 - -
6: 1 - 2 3 - - 4 - - -
7: 1 - 2 4 - 3 - - - -
8: 1 - 2 - - 3 - 4 - -
9: 1 - 2 - - 3 4 - - -
10: 1 - 2 4 3 - - - - -
11: 1 - 2 - 3 4 - - - -
12: 1 - 2 - 3 - - 4 - -
13: 1 - 2 - 3 - 4 - - -
";

/// What the example of the trees of dots prints: of the two families that share the dots the first,
/// whose levels are 0112221; and that none is left once a dot has moved.
const FITTING: &str = "\
2 fit
21: 1 - - 2 3 6 - 4 - 5 - - - -
0 fit
";

fn root() -> PathBuf {
    Path::new(env!("CARGO_MANIFEST_DIR")).join("..")
}

fn text(path: &str) -> String {
    std::fs::read_to_string(root().join(path)).expect("a file of the repository")
}

/// What a command run in the repository's root prints; it must print nothing else and succeed.
fn printed_by(command: &mut Command) -> String {
    let output = command.current_dir(root()).output().expect("it starts");
    let messages = String::from_utf8_lossy(&output.stderr);
    assert!(
        output.status.success() && messages.is_empty(),
        "{command:?}: {}\n{messages}",
        output.status
    );
    String::from_utf8(output.stdout).expect("what is printed is text")
}

/// Builds a program by its own command line, but for the path that is built.
fn built(source: &str, compiler: &str) -> Command {
    let text = text(source);
    let line = text
        .lines()
        .map(|line| {
            line.trim_start_matches(['/', '*', ' '])
                .trim_end_matches([' ', '*', '/'])
        })
        .find(|line| line.starts_with(compiler))
        .expect("the command line stands in the first lines");
    let mut words: Vec<&str> = line.split(' ').collect();
    assert!(words.contains(&source) && words.contains(&"-o"));
    let program = Path::new(env!("CARGO_TARGET_TMPDIR")).join(source.replace(['/', '.'], "_"));
    *words.last_mut().expect("a command has words") = program.to_str().expect("a path of text");
    printed_by(Command::new(words[0]).args(&words[1..]));
    Command::new(program)
}

/// What the program prints for a file of the repository.
fn printed_for(path: &str, program: &mut Command) -> String {
    let input = File::open(root().join(path)).expect("a file of the repository");
    printed_by(program.stdin(Stdio::from(input)))
}

/// The program lists the samples as they are stored.
fn lists(mut program: Command) {
    for sample in [
        "example",
        "family",
        "shelf-marks",
        "star-1024",
        "damaged-stray",
        "damaged-ring",
        "damaged-width",
        "damaged-swap",
        "old-p6",
    ] {
        let printed = printed_for(&format!("samples/{sample}.sheet"), &mut program);
        assert_eq!(printed, text(&format!("samples/{sample}.listing")));
    }
}

/// The program lists the trees of texts; other files are no such texts.
fn lists_texts(mut program: Command) {
    let printed = printed_for("samples/p6.newick", &mut program);
    assert_eq!(printed, text("samples/p6.listing"));
    for path in ["samples/p6.sheet", "samples/README.md"] {
        assert_eq!(printed_for(path, &mut program), "refused 15\n");
    }
}

#[test]
fn the_programs_in_c_build_and_print() {
    lists(built("examples/list.c", "gcc "));
    let printed = printed_by(&mut built("examples/layout.c", "gcc "));
    assert_eq!(printed, LAID_OUT);
    let printed = printed_by(&mut built("examples/treetex.c", "gcc "));
    assert_eq!(printed, FOR_TREETEX);
    let printed = printed_by(&mut built("examples/write.c", "gcc "));
    assert_eq!(printed, WRITTEN);
    lists_texts(built("examples/newick.c", "gcc "));
    let printed = printed_by(&mut built("examples/screen.c", "gcc "));
    assert_eq!(printed, SHOWN);
    let printed = printed_by(&mut built("examples/small_trees.c", "gcc "));
    assert_eq!(printed, FAMILIES);
    let printed = printed_by(&mut built("examples/trees_of_dots.c", "gcc "));
    assert_eq!(printed, FITTING);
}

#[test]
fn the_programs_in_rust_build_and_print() {
    lists(built("examples/list.rs", "rustc "));
    let printed = printed_by(&mut built("examples/layout.rs", "rustc "));
    assert_eq!(printed, LAID_OUT);
    let printed = printed_by(&mut built("examples/treetex.rs", "rustc "));
    assert_eq!(printed, FOR_TREETEX);
    let printed = printed_by(&mut built("examples/write.rs", "rustc "));
    assert_eq!(printed, WRITTEN);
    lists_texts(built("examples/newick.rs", "rustc "));
    let printed = printed_by(&mut built("examples/screen.rs", "rustc "));
    assert_eq!(printed, SHOWN);
    let printed = printed_by(&mut built("examples/small_trees.rs", "rustc "));
    assert_eq!(printed, FAMILIES);
    let printed = printed_by(&mut built("examples/trees_of_dots.rs", "rustc "));
    assert_eq!(printed, FITTING);
}

/// A family's place in its list and its table, as the examples print them.
fn line_of(place: usize, tree: &SmallTree) -> String {
    let entry = |&entry: &u16| match entry {
        NONE => "-".to_string(),
        node => node.to_string(),
    };
    let entries: Vec<String> = tree.table.iter().map(entry).collect();
    format!("{place}: {}\n", entries.join(" "))
}

#[test]
fn the_families_are_those_of_the_model() {
    let list = small_trees::list(5);
    let lines: Vec<String> = (0..)
        .zip(&list)
        .map(|(place, tree)| line_of(place, tree))
        .collect();
    assert_eq!(FAMILIES, lines.concat());
}

#[test]
fn the_fitting_families_are_those_of_the_model() {
    let mut lines = String::new();
    let mut dots = [0, 0, 1, -2, 1, 0, 1, 2, 2, -2, 2, 0, 2, 2];
    for place in [2, 3] {
        dots[13] = place;
        let Found { lowest, count, .. } = Drawings::new().trees_of_dots(7, &dots, 2);
        lines += &format!("{count} fit\n");
        if count > 0 {
            let lowest = usize::from(lowest);
            lines += &line_of(lowest, &small_trees::list(7)[lowest]);
        }
    }
    assert_eq!(FITTING, lines);
}

#[test]
fn the_readme_shows_the_programs_and_the_sample() {
    let readme = text("README.md");
    let shown = [
        ("c", "examples/list.c"),
        ("rust", "examples/list.rs"),
        ("text", "samples/p6.listing"),
    ];
    for (language, source) in shown {
        let block = format!("\n```{language}\n{}```\n", text(source));
        assert!(readme.contains(&block), "{source} as it is");
    }
}

#[test]
fn the_header_stands_alone() {
    let languages = [
        ("gcc", "c", "-std=c99"),
        ("gcc", "c", "-std=c11"),
        ("g++", "c++", "-std=c++11"),
    ];
    for (compiler, language, standard) in languages {
        if Command::new(compiler).arg("--version").output().is_err() {
            say(format_args!(
                "header: left out as {language}: no {compiler}"
            ));
            continue;
        }
        let warnings = ["-Wall", "-Wextra", "-Wpedantic", "-Werror"];
        printed_by(
            Command::new(compiler)
                .args(warnings)
                .args([standard, "-fsyntax-only", "-x", language])
                .arg("include/hiwenoka.h"),
        );
    }
}
