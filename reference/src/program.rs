//! A program run to its end: what it is fed, what it prints, and how it ends.

use std::env;
use std::io::{self, ErrorKind, PipeWriter, Read};
use std::path::{Path, PathBuf};
use std::process::{Child, Command, ExitStatus};
use std::thread;
use std::time::{Duration, Instant};

/// The longest that a program may run.
const LIMIT: Duration = Duration::from_secs(20);

/// The pauses between two looks whether a program has ended, the first and the longest.
const FIRST_PAUSE: Duration = Duration::from_micros(20);
const LONGEST_PAUSE: Duration = Duration::from_millis(5);

/// How a program ended. Nothing is said of one that had to be stopped.
pub struct Ended {
    pub status: Option<ExitStatus>,
    /// What it wrote to its standard output and to its standard error, together.
    pub printed: Vec<u8>,
}

/// The path of a program of the repository: in the folder `out` of its crate, or in the folder that
/// the environment variable `HIWENOKA_BIN_DIR` names.
pub fn path_of(name: &str) -> PathBuf {
    let folder = match env::var_os("HIWENOKA_BIN_DIR") {
        Some(folder) => PathBuf::from(folder),
        None => Path::new(env!("CARGO_MANIFEST_DIR")).join(format!("../crates/{name}/out")),
    };
    let path = folder.join(name);
    assert!(path.is_file(), "there is no program {}", path.display());
    path
}

/// Runs a command whose standard input is set.
pub fn run(command: Command) -> Ended {
    run_within(LIMIT, command)
}

/// Runs a command with its standard input from a pipe into which `feed` writes. The program may
/// end before it has read all.
pub fn run_fed(
    mut command: Command,
    feed: impl FnOnce(&mut PipeWriter) -> io::Result<()> + Send,
) -> Ended {
    let (input, mut feeder) = io::pipe().expect("a pipe can be made");
    command.stdin(input);
    thread::scope(|scope| {
        scope.spawn(move || match feed(&mut feeder) {
            Err(error) if error.kind() == ErrorKind::BrokenPipe => (),
            fed => fed.expect("the input can be written"),
        });
        run(command)
    })
}

/// How a command ends whose standard input and outputs are set.
pub fn end_of(mut command: Command) -> Option<ExitStatus> {
    let mut child = command.spawn().expect("the program can be started");
    drop(command);
    wait(&mut child, LIMIT)
}

fn run_within(limit: Duration, mut command: Command) -> Ended {
    let (mut output, outputs) = io::pipe().expect("a pipe can be made");
    let errors = outputs.try_clone().expect("a pipe's end can be shared");
    command.stdout(outputs).stderr(errors);
    let mut child = command.spawn().expect("the program can be started");
    // From here on only the child holds its ends of the pipes.
    drop(command);
    thread::scope(|scope| {
        let reader = scope.spawn(move || {
            let mut printed = Vec::new();
            output.read_to_end(&mut printed).map(|_| printed)
        });
        let status = wait(&mut child, limit);
        let printed = reader.join().expect("the reader does not fail");
        Ended {
            status,
            printed: printed.expect("the output can be read"),
        }
    })
}

/// Waits for the child's end, or stops it.
fn wait(child: &mut Child, limit: Duration) -> Option<ExitStatus> {
    let start = Instant::now();
    let mut pause = FIRST_PAUSE;
    loop {
        let status = child.try_wait().expect("a child can be waited for");
        if status.is_some() {
            return status;
        }
        if start.elapsed() > limit {
            child.kill().expect("a child can be stopped");
            child.wait().expect("a child can be waited for");
            return None;
        }
        thread::sleep(pause);
        pause = (2 * pause).min(LONGEST_PAUSE);
    }
}

#[cfg(test)]
mod tests {
    use super::*;
    use std::io::Write;
    use std::process::Stdio;

    fn shell(script: &str) -> Command {
        let mut command = Command::new("sh");
        command.args(["-c", script]).stdin(Stdio::null());
        command
    }

    fn exit_code(ended: &Ended) -> Option<i32> {
        ended.status.and_then(|status| status.code())
    }

    #[test]
    fn both_outputs_and_the_exit_code_are_seen() {
        let ended = run(shell("echo one; echo two >&2; exit 3"));
        assert_eq!(ended.printed, b"one\ntwo\n");
        assert_eq!(exit_code(&ended), Some(3));
    }

    #[test]
    fn what_is_fed_arrives() {
        let text = vec![b'a'; 1_000_000];
        let ended = run_fed(shell("cat"), |input| input.write_all(&text));
        assert_eq!(ended.printed, text);
        assert_eq!(exit_code(&ended), Some(0));
    }

    #[test]
    fn a_program_may_end_before_it_has_read_all() {
        let ended = run_fed(shell("exit 0"), |input| loop {
            input.write_all(&[0; 4_096])?;
        });
        assert_eq!(exit_code(&ended), Some(0));
    }

    #[test]
    fn a_program_that_does_not_end_is_stopped() {
        let ended = run_within(Duration::from_millis(50), shell("exec sleep 60"));
        assert!(ended.status.is_none());
    }
}
