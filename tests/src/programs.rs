//! Programs, as they were built, run on an input.

use crate::files::at;
use crate::text::{refused, report};
use crate::{answer, visibility, Call, Outcome, Refusal, Taken};
use std::io::{ErrorKind, Write};
use std::path::PathBuf;
use std::process::{Command, Output, Stdio};
use std::thread;

/// What a program has written to standard output and to standard error.
pub type Said = (Vec<u8>, String);

/// Each reads a trace file on standard input.
#[derive(Clone, Copy, PartialEq, Eq, Debug)]
pub enum Program {
    /// Prints the report or writes a file, by this call.
    Of(Call),
    /// Writes the image, by the call that judges.
    Image,
    /// Prints which commit is visible to which.
    Visibility,
}

impl Program {
    pub const ALL: [Program; 8] = [
        Program::Of(Call::Judge),
        Program::Of(Call::Replay),
        Program::Of(Call::Short),
        Program::Of(Call::Long),
        Program::Of(Call::Port),
        Program::Of(Call::Plain),
        Program::Image,
        Program::Visibility,
    ];

    /// Those that print a report, a refusal too, on standard output; the others
    /// write a file there, or tell a refusal on standard error.
    pub const REPORTING: [Program; 4] = [
        Program::Of(Call::Judge),
        Program::Of(Call::Port),
        Program::Of(Call::Plain),
        Program::Visibility,
    ];

    pub fn name(self) -> &'static str {
        match self {
            Program::Of(call) => call.name(),
            Program::Image => "image",
            Program::Visibility => "visibility",
        }
    }

    /// Where it was built.
    pub fn path(self) -> PathBuf {
        built(self.name())
    }

    /// What it has to say of a file that comes to this.
    pub fn due(self, outcome: &Outcome) -> Said {
        match self {
            Program::Of(Call::Judge | Call::Port | Call::Plain) => reported(outcome),
            Program::Of(Call::Replay) => written(outcome, |taken| &taken.replay),
            Program::Of(Call::Short) => written(outcome, |taken| &taken.short),
            Program::Of(Call::Long) => written(outcome, |taken| &taken.long),
            Program::Image => match outcome {
                Ok(taken) => (taken.image.clone(), String::new()),
                Err(refusal) => (Vec::new(), refused(refusal)),
            },
            Program::Visibility => {
                let text = match outcome {
                    Ok(taken) => visibility::text(&visibility::rows(&taken.store)),
                    Err(refusal) => refused(refusal),
                };
                (text.into_bytes(), String::new())
            }
        }
    }
}

/// Where the program of this name was built.
pub fn built(name: &str) -> PathBuf {
    let path = at("crates").join(name).join("out").join(name);
    assert!(
        path.exists(),
        "there is no crates/{name}/out/{name}: `rt run` in crates/{name} builds it"
    );
    path
}

fn reported(outcome: &Outcome) -> Said {
    let mut image = vec![0; Call::Judge.longest()];
    let text = report(&answer(outcome, &mut image));
    (text.into_bytes(), String::new())
}

/// A file that is written, or the refusal.
fn written(outcome: &Outcome, file: fn(&Taken) -> &Result<Vec<u8>, Refusal>) -> Said {
    let file = outcome.as_ref().map(file);
    match file {
        Ok(Ok(file)) => (file.clone(), String::new()),
        Ok(Err(refusal)) | Err(refusal) => (Vec::new(), refused(refusal)),
    }
}

/// Runs a program on an input that comes in so many bytes at a time. It need
/// not read to the end.
pub fn run(command: &mut Command, input: &[u8], at_a_time: usize) -> Output {
    let mut child = command
        .stdin(Stdio::piped())
        .stdout(Stdio::piped())
        .stderr(Stdio::piped())
        .spawn()
        .unwrap_or_else(|error| panic!("{command:?}: {error}"));
    let mut stdin = child.stdin.take().expect("it is piped");
    let input = input.to_vec();
    let writer = thread::spawn(move || {
        for part in input.chunks(at_a_time) {
            match stdin.write_all(part) {
                Err(error) if error.kind() == ErrorKind::BrokenPipe => return,
                result => result.expect("the input is written"),
            }
        }
    });
    let output = child.wait_with_output().expect("the program ends");
    writer.join().expect("the input is written");
    output
}

/// What a program that has ended well has said.
pub fn said(output: Output) -> Said {
    let told = String::from_utf8(output.stderr).expect("text");
    assert!(output.status.success(), "{:?}: {told}", output.status);
    (output.stdout, told)
}

/// What a program prints for an input. It must end well and say nothing else.
pub fn printed(command: &mut Command, input: &[u8]) -> String {
    let (printed, told) = said(run(command, input, usize::MAX));
    assert_eq!(told, "");
    String::from_utf8(printed).expect("text")
}
