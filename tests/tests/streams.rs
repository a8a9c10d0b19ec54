//! The programs where their input or their output fails, is late or is cut: a
//! failure gets a line on standard error, and nothing is written.

use model::example_traces::trace_e;
use model::files::{at, files};
use model::generate::{exactly_full, pieces};
use model::programs::{said, Program, Said};
use model::random::Random;
use model::trace::encode;
use model::{outcome, Call};
use std::fs::{self, File, OpenOptions};
use std::io::Write;
use std::os::fd::OwnedFd;
use std::os::unix::net::UnixStream;
use std::path::PathBuf;
use std::process::{Child, Command, Stdio};
use std::thread::sleep;
use std::time::Duration;

/// What is due for a whole input: the lost view, which SER accepts, so that
/// each program has something to write.
fn whole(program: Program) -> Said {
    program.due(&outcome(&encode(&trace_e())))
}

/// The same as a file.
fn lost_view() -> File {
    File::open(at("examples/E-lost-view")).expect("an example trace")
}

/// A line on standard error, and nothing on standard output.
fn told(line: &str) -> Said {
    (Vec::new(), format!("{line}\n"))
}

/// The program, started with these streams.
fn start(program: Program, input: impl Into<Stdio>, output: impl Into<Stdio>) -> Child {
    Command::new(program.path())
        .stdin(input)
        .stdout(output)
        .stderr(Stdio::piped())
        .spawn()
        .expect("the program starts")
}

/// What it has said when it has ended.
fn ended(child: Child) -> Said {
    said(child.wait_with_output().expect("the program ends"))
}

/// A shell runs the program on the lost view, with its streams redirected:
/// `line` says how.
fn redirected(program: Program, line: &str) -> Said {
    let output = Command::new("sh")
        .arg("-c")
        .arg(format!("exec \"$0\" {line}"))
        .arg(program.path())
        .current_dir(at("examples"))
        .stdin(lost_view())
        .output()
        .expect("there is a shell");
    said(output)
}

#[test]
fn a_whole_input() {
    for program in Program::ALL {
        assert_eq!(redirected(program, ""), whole(program));
    }
}

#[test]
fn closed_input() {
    for program in Program::ALL {
        let due = told("standard input: Bad file descriptor");
        assert_eq!(redirected(program, "<&-"), due);
    }
}

#[test]
fn a_directory_as_input() {
    for program in Program::ALL {
        let due = told("standard input: Is a directory");
        assert_eq!(redirected(program, "< /"), due);
    }
}

/// Nothing at all is an input, and no failure.
#[test]
fn an_empty_input() {
    let line = "refused 1 record 0 key 0 version 0";
    let printed = (format!("{line}\n").into_bytes(), String::new());
    for program in Program::ALL {
        let due = match Program::REPORTING.contains(&program) {
            true => printed.clone(),
            false => told(line),
        };
        assert_eq!(redirected(program, "< /dev/null"), due);
    }
}

/// A refusal of a program that writes a file goes to standard error whatever
/// standard output is, and nowhere else if it cannot be told there.
#[test]
fn a_refusal_beside_closed_streams() {
    let no_replay = "refused 16 record 2 key 0 version 1";
    let wrong_read = "refused 13 record 1 key 0 version 0 writer 0";
    for (program, file, line) in [
        (Program::Of(Call::Replay), "B-lost-update", no_replay),
        (Program::Of(Call::Short), "I-wrong-read", wrong_read),
        (Program::Of(Call::Long), "I-wrong-read", wrong_read),
        (Program::Image, "I-wrong-read", wrong_read),
    ] {
        let nothing = (Vec::new(), String::new());
        for (streams, due) in [("", told(line)), (">&-", told(line)), ("2>&-", nothing)] {
            let line = format!("< {file} {streams}");
            assert_eq!(redirected(program, &line), due, "{line}");
        }
    }
}

#[test]
fn a_full_device() {
    for program in Program::ALL {
        let full = OpenOptions::new()
            .write(true)
            .open("/dev/full")
            .expect("a device that is full");
        let due = told("standard output: No space left on device");
        assert_eq!(ended(start(program, lost_view(), full)), due);
    }
}

#[test]
fn closed_output() {
    for program in Program::ALL {
        let due = told("standard output: Bad file descriptor");
        assert_eq!(redirected(program, ">&-"), due);
    }
}

/// A file that may have no byte: the signal of that is ignored, so that the
/// program can tell.
#[test]
fn a_cut_output() {
    for program in Program::ALL {
        let cut = PathBuf::from(env!("CARGO_TARGET_TMPDIR")).join("cut");
        let output = Command::new("sh")
            .arg("-c")
            .arg("trap '' XFSZ; ulimit -f 0; exec \"$0\" > \"$1\"")
            .arg(program.path())
            .arg(&cut)
            .stdin(lost_view())
            .output()
            .expect("there is a shell");
        assert_eq!(said(output), told("standard output: File too large"));
        assert_eq!(fs::read(&cut).expect("the output"), b"");
    }
}

/// A write that takes no byte and does not fail has no reason of the system's,
/// and that of an earlier call is not told for it.
#[test]
fn an_output_that_takes_nothing() {
    let write = PathBuf::from(env!("CARGO_TARGET_TMPDIR")).join("takes_nothing.so");
    let compiler = Command::new("gcc")
        .args(["-Wall", "-Wextra", "-Werror", "-shared", "-fPIC", "-o"])
        .arg(&write)
        .arg(at("tests/tests/streams/takes_nothing.c"))
        .status();
    assert!(compiler.expect("there is gcc").success());
    for program in Program::ALL {
        let output = Command::new(program.path())
            .env("LD_PRELOAD", &write)
            .stdin(lost_view())
            .output()
            .expect("the program starts");
        assert_eq!(said(output), told("standard output: no byte was taken"));
    }
}

/// The pieces of the lost view, with pauses.
fn late(mut to: impl Write) {
    for piece in encode(&trace_e()).chunks(30) {
        sleep(Duration::from_millis(100));
        to.write_all(piece).expect("the input is written");
    }
}

#[test]
fn a_late_writer() {
    for program in Program::ALL {
        let mut child = start(program, Stdio::piped(), Stdio::piped());
        late(child.stdin.take().expect("it is piped"));
        assert_eq!(ended(child), whole(program));
    }
}

/// The same pieces, with pauses between them, to the programs that print what they
/// say of a file: they print it whole. No input has more bytes than show that it is
/// too long.
#[test]
fn pieces_with_pauses() {
    let full = encode(&exactly_full(&mut Random::seeded(3)).trace);
    let mut long = full.clone();
    long.push(0);
    let inputs = files().into_iter().map(|(_, example)| example.bytes);
    for (seed, input) in inputs.chain([full, long]).enumerate() {
        let outcome = outcome(&input);
        for program in Program::REPORTING {
            let due = program.due(&outcome);
            let random = &mut Random::seeded(seed as u64);
            let mut child = start(program, Stdio::piped(), Stdio::piped());
            let mut to = child.stdin.take().expect("it is piped");
            for piece in pieces(random, &input, 1 + input.len() / 4) {
                to.write_all(piece).expect("the input is written");
                sleep(Duration::from_millis(5));
            }
            drop(to);
            assert_eq!(ended(child), due, "input {seed}, {}", program.name());
        }
    }
}

/// An input that does not wait: a read finds nothing ready and fails, until
/// there is something.
#[test]
fn an_input_that_is_not_ready() {
    for program in Program::ALL {
        let (ours, theirs) = UnixStream::pair().expect("two ends");
        theirs
            .set_nonblocking(true)
            .expect("an end that does not wait");
        let child = start(program, OwnedFd::from(theirs), Stdio::piped());
        late(ours);
        assert_eq!(ended(child), whole(program));
    }
}
