//! The listing program held against the model, byte for byte.
//!
//! Every run must end in time and with success, and print what the model gives and nothing else,
//! on either output. Only where its output is lost is it enough that the program ends.

use reference::files::{random_file, KINDS};
use reference::listing::{listing, number_of, NUMBERS};
use reference::program::{self, Ended};
use reference::run::Run;
use reference::samples::{self, samples};
use reference::shapes::random_table;
use reference::sheet::{self, BLOCK_BYTES, MOST_BLOCKS};
use std::collections::BTreeMap;
use std::fs::{self, File};
use std::io::{self, PipeWriter, Write};
use std::path::{Path, PathBuf};
use std::process::{Command, Stdio};
use std::time::Duration;
use std::{fmt, thread};

/// The length of the longest sheet file.
const MOST_BYTES: usize = MOST_BLOCKS * BLOCK_BYTES;

/// Long enough for the program to read all that there is.
const MOMENT: Duration = Duration::from_millis(20);

/// Read and write calls, together, for a sheet of 1,024 nodes.
const MOST_SYSTEM_CALLS: usize = 12;

/// What a run was given, for the message of a failure.
struct Call<'a> {
    how: &'a str,
    file: &'a [u8],
}

impl Call<'_> {
    /// Keeps the whole input for the one who looks into a difference.
    fn keep(&self) {
        fs::write(kept("listing-failed.sheet"), self.file).expect("the input can be kept");
    }
}

impl fmt::Display for Call<'_> {
    fn fmt(&self, f: &mut fmt::Formatter) -> fmt::Result {
        write!(
            f,
            "listing: {}; {} bytes, kept in {}: {:?}",
            self.how,
            self.file.len(),
            kept("listing-failed.sheet").display(),
            &self.file[..self.file.len().min(32)]
        )
    }
}

/// A file of this comparison's own.
fn kept(name: &str) -> PathBuf {
    Path::new(env!("CARGO_TARGET_TMPDIR")).join(name)
}

/// Each line as it can be shown.
fn lines(text: &[u8]) -> Vec<String> {
    text.split_inclusive(|&byte| byte == b'\n')
        .map(|line| line.escape_ascii().to_string())
        .collect()
}

/// Writes in pieces of the given lengths, again and again, with a pause after each.
fn write_pieces(
    input: &mut PipeWriter,
    mut bytes: &[u8],
    lengths: &[usize],
    pause: Duration,
) -> io::Result<()> {
    for &length in lengths.iter().cycle() {
        let (piece, rest) = bytes.split_at(length.min(bytes.len()));
        input.write_all(piece)?;
        input.flush()?;
        thread::sleep(pause);
        bytes = rest;
        if bytes.is_empty() {
            break;
        }
    }
    Ok(())
}

struct Comparison {
    run: Run,
    program: PathBuf,
}

impl Comparison {
    fn command(&self) -> Command {
        Command::new(&self.program)
    }

    /// The program run by a shell, with what the shell does to its input or output.
    fn shell(&self, script: &str) -> Command {
        let mut command = Command::new("sh");
        command.args(["-c", script]).arg(&self.program);
        command
    }

    /// The program with a file, a folder or a device as its input.
    fn reading(&self, path: &Path) -> Command {
        let mut command = self.command();
        command.stdin(File::open(path).expect("the input can be opened"));
        command
    }

    /// Holds one run against the model for the bytes that were its input.
    fn expect(&mut self, how: &str, file: &[u8], ended: &Ended) {
        self.run.count_call();
        let call = Call { how, file };
        let wanted = listing(file);
        let code = ended.status.and_then(|status| status.code());
        if code != Some(0) || ended.printed != wanted {
            call.keep();
        }
        let run = &self.run;
        run.expect("ends in time", ended.status.is_some(), true, &call);
        run.expect("exit code", code, Some(0), &call);
        run.expect_slice("lines", &lines(&ended.printed), &lines(&wanted), &call);
        self.run.count_number(number_of(&wanted));
    }

    /// The same for a run whose number the paper gives.
    fn expect_number(&mut self, number: u16, how: &str, file: &[u8], ended: &Ended) {
        self.expect(how, file, ended);
        self.run
            .expect(how, number_of(&ended.printed), number, &"the paper's own");
    }

    /// Runs the program on each of these files, up to the first on which it does not end.
    fn run_each<'a>(&self, files: &'a [Vec<u8>]) -> Vec<(&'a [u8], Ended)> {
        let mut runs = Vec::new();
        for file in files {
            let ended = program::run_fed(self.command(), |input| input.write_all(file));
            let stopped = ended.status.is_none();
            runs.push((&file[..], ended));
            if stopped {
                break;
            }
        }
        runs
    }

    /// Holds the program against the model on each of these files, several at a time.
    fn compare(&mut self, title: &str, files: &[Vec<u8>]) {
        let workers = 2 * thread::available_parallelism().map_or(1, usize::from);
        let runs: Vec<_> = thread::scope(|scope| {
            let workers: Vec<_> = files
                .chunks(files.len().div_ceil(workers))
                .map(|share| scope.spawn(|| self.run_each(share)))
                .collect();
            workers
                .into_iter()
                .flat_map(|worker| worker.join().expect("every program can be run"))
                .collect()
        });
        for (file, ended) in runs {
            self.expect(title, file, &ended);
        }
        self.run.end_section(title);
    }

    /// What is stored is what is printed.
    fn samples(&mut self) {
        for sample in samples() {
            let [sheet, listing] = sample.files().map(|(name, _)| samples::folder().join(name));
            let ended = program::run(self.reading(&sheet));
            let file = fs::read(&sheet).expect("the sheet is stored");
            self.expect(sample.name, &file, &ended);
            let stored = fs::read(&listing).expect("the listing is stored");
            let printed = lines(&ended.printed);
            self.run
                .expect_slice("lines", &printed, &lines(&stored), &sample.name);
        }
        self.run.end_section("the samples");
    }

    /// The same sheets from a file and through pipes in pieces of many lengths.
    fn ways_to_arrive(&mut self) {
        let random = &mut self.run.random;
        let small = sheet::write(&sheet::example());
        let table = random_table(1_024, random);
        let large = random_file(table, random);
        for file in [&small, &large] {
            let path = kept("listing-arriving.sheet");
            fs::write(&path, file).expect("the sheet can be kept");
            let ended = program::run(self.reading(&path));
            self.expect_number(0, "a file", file, &ended);
            let ended = program::run_fed(self.command(), |input| input.write_all(file));
            self.expect_number(0, "a pipe in one write", file, &ended);
            let instant = Duration::from_micros(1);
            let long = Duration::from_millis(3);
            let ways: [(&str, &[usize], Duration); 5] = [
                ("a pipe, a byte at a time", &[1], instant),
                ("a pipe, 7 bytes at a time", &[7], instant),
                ("a pipe, 513 bytes at a time", &[513], long),
                ("a pipe, 4,096 bytes at a time", &[4_096], long),
                (
                    "a pipe in odd pieces",
                    &[1, 511, 2, 1_021, 3, 4_097, 64],
                    long,
                ),
            ];
            for (how, lengths, pause) in ways {
                let ended = program::run_fed(self.command(), |input| {
                    write_pieces(input, file, lengths, pause)
                });
                self.expect_number(0, how, file, &ended);
            }
            let ended = program::run_fed(self.command(), |input| {
                input.write_all(file)?;
                thread::sleep(MOMENT);
                Ok(())
            });
            self.expect_number(0, "a pipe that ends late", file, &ended);
            let ended = program::run_fed(self.command(), |input| {
                input.write_all(file)?;
                thread::sleep(MOMENT);
                input.write_all(&[0])
            });
            let longer = [&file[..], &[0]].concat();
            self.expect_number(9, "a pipe with one more byte late", &longer, &ended);
        }
        self.run.end_section("ways in which an input arrives");
    }

    /// Nothing to read, and inputs of the greatest length and above.
    fn no_input_and_too_much(&mut self) {
        let ended = program::run_fed(self.command(), |_| Ok(()));
        self.expect_number(9, "an empty pipe", &[], &ended);
        let ended = program::run(self.reading(Path::new("/dev/null")));
        self.expect_number(9, "an empty device", &[], &ended);
        let ended = program::run(self.shell("exec \"$0\" <&-"));
        self.expect_number(9, "a closed input", &[], &ended);
        let ended = program::run(self.reading(&samples::folder()));
        self.expect_number(9, "a folder", &[], &ended);
        let table = random_table(1_024, &mut self.run.random);
        let sound = random_file(table, &mut self.run.random);
        let lengths = [
            (0, 9),
            (MOST_BYTES, 0),
            (MOST_BYTES + 1, 9),
            (MOST_BYTES + BLOCK_BYTES, 9),
            (65_536 + MOST_BYTES, 9),
            (1_000_000, 9),
        ];
        for (len, number) in lengths {
            let mut file = sound.clone();
            file.resize(len, 0);
            let path = kept("listing-long.sheet");
            fs::write(&path, &file).expect("the input can be kept");
            let ended = program::run(self.reading(&path));
            self.expect_number(number, "a file of a given length", &file, &ended);
            let ended = program::run_fed(self.command(), |input| input.write_all(&file));
            self.expect_number(number, "a pipe of a given length", &file, &ended);
        }
        let above = vec![0; MOST_BYTES + 1];
        let ended = program::run(self.reading(Path::new("/dev/zero")));
        self.expect_number(9, "an endless device", &above, &ended);
        let ended = program::run_fed(self.command(), |input| {
            input.write_all(&sound)?;
            loop {
                input.write_all(&[0; BLOCK_BYTES])?;
            }
        });
        self.expect_number(9, "an endless pipe", &above, &ended);
        self.run.end_section("nothing to read, and too much");
    }

    /// Outputs that take nothing: the program has to end, in whatever way.
    fn lost_outputs(&mut self) {
        for name in ["star-1024.sheet", "damaged-bit.sheet"] {
            let path = samples::folder().join(name);
            let (reader, unread) = io::pipe().expect("a pipe can be made");
            drop(reader);
            let share = || unread.try_clone().expect("a pipe's end can be shared");
            let full = File::options().write(true).open("/dev/full");
            let full = full.expect("there is a device that is full");
            let ways = [
                ("no reader", self.command(), Stdio::from(share())),
                (
                    "no reader, and no signal of it",
                    self.shell("trap '' PIPE; exec \"$0\""),
                    Stdio::from(share()),
                ),
                ("a full device", self.command(), Stdio::from(full)),
                (
                    "a closed output",
                    self.shell("exec \"$0\" >&-"),
                    Stdio::null(),
                ),
            ];
            for (how, mut command, output) in ways {
                self.run.count_call();
                let input = File::open(&path).expect("the sheet is stored");
                command.stdin(input).stdout(output).stderr(Stdio::null());
                let ends = program::end_of(command).is_some();
                self.run.expect("ends in time", ends, true, &how);
            }
        }
        self.run.end_section("outputs that are lost");
    }

    /// The calls of the system by which the largest listing is read and written.
    fn system_calls(&mut self) {
        let trace = kept("listing-calls");
        let traced = |program: &Path, input: &Path| {
            let mut command = Command::new("strace");
            command
                .args(["-qq", "-e", "trace=read,readv,write,writev", "-o"])
                .args([&trace, program])
                .stdin(File::open(input).expect("the input can be opened"));
            command
        };
        let probe = traced(Path::new("true"), Path::new("/dev/null")).output();
        if !probe.is_ok_and(|output| output.status.success()) {
            self.run
                .note("system calls are not counted: strace cannot be used here");
            return;
        }
        for name in ["star-1024", "chain-1024"] {
            let path = samples::folder().join(format!("{name}.sheet"));
            let ended = program::run(traced(&self.program, &path));
            let file = fs::read(&path).expect("the sheet is stored");
            self.expect(name, &file, &ended);
            let calls = fs::read_to_string(&trace).expect("the calls are written down");
            let count = calls.lines().count();
            self.run
                .note(&format!("{count} read and write calls for {name}"));
            let few = count <= MOST_SYSTEM_CALLS;
            self.run.expect("few enough calls", few, true, &calls);
        }
        self.run.end_section("system calls counted");
    }
}

#[test]
fn the_samples_are_as_they_are_made() {
    let made: BTreeMap<String, Vec<u8>> = samples::files().collect();
    let mut stored = BTreeMap::new();
    for entry in fs::read_dir(samples::folder()).expect("there is a folder of samples") {
        let path = entry.expect("the folder can be read").path();
        let name = path.file_name().expect("a file has a name");
        let bytes = fs::read(&path).expect("a sample can be read");
        stored.insert(name.to_string_lossy().into_owned(), bytes);
    }
    let table = stored
        .remove("README.md")
        .expect("the samples have a table");
    let table = String::from_utf8(table).expect("the table is text");
    let (newick, _) = samples::newick();
    let sheets = samples().into_iter().map(|sample| sample.name.to_string());
    for name in sheets.chain([newick]) {
        let row = format!("| `{name}` |");
        assert!(table.contains(&row), "the table has no {name}");
    }
    assert!(stored.keys().eq(made.keys()), "other files are stored");
    for (name, bytes) in &made {
        assert!(stored[name] == *bytes, "{name} is not as it is made");
    }
}

#[test]
fn the_listing_program_agrees_with_the_model() {
    let mut comparison = Comparison {
        run: Run::start("listing"),
        program: program::path_of("listing"),
    };
    comparison.samples();
    for kind in &KINDS {
        let files = (kind.make)(&mut comparison.run.random);
        comparison.compare(kind.title, &files);
    }
    comparison.ways_to_arrive();
    comparison.no_input_and_too_much();
    comparison.lost_outputs();
    comparison.system_calls();
    comparison.run.expect_numbers(&NUMBERS);
    comparison.run.finish(5_000);
}
