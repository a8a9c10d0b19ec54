//! Did the store of the trace on standard input keep snapshot isolation?
use consistency::{judge, Answer, Verdict, LONGEST_FILE, LONGEST_IMAGE};
use std::io::{stdin, Read};

fn main() {
    let mut file = Vec::new();
    let mut input = stdin().take(LONGEST_FILE as u64 + 1);
    input.read_to_end(&mut file).expect("a trace file");
    match judge(&file, &mut [0; LONGEST_IMAGE]) {
        Answer::Refused(why) => println!("code {} at record {}", why.code, why.record),
        Answer::Judged { verdicts, .. } => match verdicts.si {
            Verdict::Accepted => println!("yes"),
            Verdict::Refused { record, .. } => println!("no, see record {record}"),
        },
    }
}
