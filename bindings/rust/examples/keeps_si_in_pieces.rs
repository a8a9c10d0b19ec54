//! Did the store of the trace on standard input keep snapshot isolation? The
//! trace is taken piece by piece, as it comes.
use consistency::{Answer, Session, Verdict, LONGEST_FILE, LONGEST_IMAGE};
use std::io::{stdin, Read};

fn main() {
    let mut session = Session::open();
    let mut input = stdin().take(LONGEST_FILE as u64 + 1);
    let mut piece = [0; 4096];
    loop {
        let length = input.read(&mut piece).expect("a piece of a trace file");
        if length == 0 {
            break;
        }
        session.push(&piece[..length]).expect("it is open");
    }
    match session.close(&mut [0; LONGEST_IMAGE]) {
        Answer::Refused(why) => println!("code {} at record {}", why.code, why.record),
        Answer::Judged { verdicts, .. } => match verdicts.si {
            Verdict::Accepted => println!("yes"),
            Verdict::Refused { record, .. } => println!("no, see record {record}"),
        },
    }
}
