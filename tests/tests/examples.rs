//! The example traces against the model.

use model::buffer::{pattern, untouched, LONG, LONG_FILE};
use model::example_traces::{all, trace_a, trace_b, trace_e, Expected};
use model::generate::largest_serial;
use model::levels::place_of;
use model::random::Random;
use model::trace::{encode, with_true_length};
use model::{image, judge, outcome, replay, report, Answer, Refusal, Replay, Verdict};

#[test]
fn all_example_traces() {
    for example in all() {
        let mut image = pattern(LONG);
        let answer = judge(&example.bytes, &mut image);
        match (answer, example.expected) {
            (Answer::Refused(refusal), Expected::Refused(expected)) => {
                assert_eq!(refusal, expected, "trace {}", example.name);
                assert!(untouched(&image, 0), "trace {}", example.name);
            }
            (Answer::Judged(report), Expected::Judged(expected)) => {
                assert_eq!(report.verdicts, expected, "trace {}", example.name);
                assert_eq!(
                    report.records,
                    example.trace.records.len(),
                    "trace {}",
                    example.name
                );
                let end = report.image_len;
                assert!(untouched(&image, end), "trace {}", example.name);
            }
            _ => panic!("trace {}: {answer:?}", example.name),
        }
    }
}

#[test]
fn image_of_a() {
    let mut image = pattern(30);
    let Answer::Judged(judged) = judge(&encode(&trace_a()), &mut image) else {
        panic!()
    };
    assert_eq!(
        (judged.records, judged.commits, judged.image_len),
        (0, 0, 28)
    );
    let mut expected = vec![28, 0, 0, 0, 1, 0, 0, 0];
    expected.extend([1, 0, 0, 0]);
    expected.extend([0; 16]);
    assert_eq!(image[..28], expected);
    assert!(untouched(&image, 28));
}

#[test]
fn image_of_b() {
    let file = encode(&trace_b());
    assert_eq!(file.len(), 80);
    let mut image = pattern(93);
    let Answer::Judged(judged) = judge(&file, &mut image) else {
        panic!()
    };
    assert_eq!(
        (judged.records, judged.commits, judged.image_len),
        (2, 2, 92)
    );
    let mut expected = vec![92, 0, 0, 0, 1, 2, 0, 0];
    expected.extend([0, 0, 0, 0, 0, 0, 0, 0]); // client 0, number 0,
    expected.extend([1, 0, 0, 0, 0, 0, 0, 0]); // from {0}
    expected.extend([1, 0, 0, 0, 0, 0, 0, 0]); // client 1, number 0,
    expected.extend([1, 0, 0, 0, 0, 0, 0, 0]); // from {0}
    expected.extend([3, 0, 0, 0]);
    expected.extend([0, 0, 0, 0, 0, 0, 0, 0, 6, 0, 0, 0, 0, 0, 0, 0]); // read by 1 and 2
    expected.extend([1, 0, 0, 0, 1, 0, 0, 0, 0, 0, 0, 0, 0, 0, 0, 0]);
    expected.extend([1, 0, 0, 0, 2, 0, 0, 0, 0, 0, 0, 0, 0, 0, 0, 0]);
    assert_eq!(image[..92], expected);
    assert!(untouched(&image, 92));
}

/// A commit keeps the view that it was judged from, whatever its client sees
/// before or after.
#[test]
fn views_in_the_image_of_e() {
    let taken = outcome(&encode(&trace_e())).expect("it is taken");
    let [first, second] = [8 + 8, 8 + 16 + 8].map(|place| taken.image[place]);
    assert_eq!([first, second], [0b1, 0b11]);
}

/// "Image lengths in 01 change: trace A stays 28, trace B becomes 92."
#[test]
fn lengths_of_the_images() {
    let mut lengths = String::new();
    for example in all() {
        if let Ok(taken) = outcome(&example.bytes) {
            lengths += &format!("{} {}, ", example.name, taken.image.len());
        }
    }
    let due = "A 28, B 92, C 176, D 128, E 76, F 152, G 152, K, 63 commits 2044, L 76, M 152, ";
    assert_eq!(lengths, due);
}

#[test]
fn report_of_b() {
    let mut image = [0; 92];
    let answer = judge(&encode(&trace_b()), &mut image);
    let expected = "\
records 2 commits 2
MR accepted
MW accepted
RYW accepted
WFR accepted
CC accepted
UA refused record 2 clause 5 key 0 version 1
PSI refused record 2 clause 5 key 0 version 1
CP accepted
SI refused record 2 clause 5 key 0 version 1
SER refused record 2 clause 8 key 0 version 1
";
    assert_eq!(report(&answer), expected);
}

#[test]
fn report_of_a_refusal() {
    let answer = judge(&[], &mut []);
    assert_eq!(report(&answer), "refused 1 record 0 key 0 version 0\n");
}

#[test]
fn short_image_buffer() {
    let file = encode(&trace_b());
    for length in 0..92 {
        let mut image = pattern(length);
        let Answer::Refused(refusal) = judge(&file, &mut image) else {
            panic!()
        };
        assert_eq!((refusal.code, refusal.record), (15, 0));
        assert!(untouched(&image, 0));
    }
}

/// The trace's own refusal; SER's failure as code 16; or a file that ends in
/// the same image, and that all levels accept.
#[test]
fn replays_of_all_example_traces() {
    for example in all() {
        let mut buffer = pattern(LONG_FILE);
        let answer = replay(&example.bytes, &mut buffer);
        let written = match (answer, example.expected) {
            (Replay::Refused(refusal), Expected::Refused(expected)) => {
                assert_eq!(refusal, expected, "trace {}", example.name);
                0
            }
            (Replay::Refused(refusal), Expected::Judged(expected)) => {
                let Verdict::Refused {
                    record,
                    key,
                    version,
                    ..
                } = expected[place_of("SER")]
                else {
                    panic!("trace {}: {refusal:?}", example.name)
                };
                let named = (refusal.record, refusal.key, refusal.version);
                assert_eq!(refusal.code, 16, "trace {}", example.name);
                assert_eq!(named, (record, key, version), "trace {}", example.name);
                0
            }
            (Replay::Written(length), Expected::Judged(expected)) => {
                let ser = expected[place_of("SER")];
                assert_eq!(ser, Verdict::Accepted, "trace {}", example.name);
                let again = outcome(&buffer[..length]).expect("it is taken");
                let image = outcome(&example.bytes).expect("it is taken").image;
                assert!(again.image == image, "trace {}", example.name);
                assert_eq!(again.report.verdicts, [Verdict::Accepted; 10]);
                length
            }
            _ => panic!("trace {}: {answer:?}", example.name),
        };
        assert!(untouched(&buffer, written), "trace {}", example.name);
    }
}

/// Without a commit nothing is to be replayed.
#[test]
fn replay_of_a() {
    let file = encode(&trace_a());
    let mut buffer = pattern(13);
    assert_eq!(replay(&file, &mut buffer), Replay::Written(12));
    assert_eq!(buffer[..12], file);
    assert!(untouched(&buffer, 12));
}

/// Whatever the buffer is: 16 comes before 17.
#[test]
fn replay_of_b() {
    for length in [0, 11, 12, LONG_FILE] {
        let mut buffer = pattern(length);
        let due = Refusal {
            version: 1,
            ..Refusal::at(16, 2)
        };
        let answer = replay(&encode(&trace_b()), &mut buffer);
        assert_eq!(answer, Replay::Refused(due));
        assert!(untouched(&buffer, 0));
    }
}

#[test]
fn replay_of_e() {
    let mut due = vec![92, 0, 0, 0];
    due.extend([8, 0, 1, 0, 1, 2, 4, 0]); // 1 key, 2 clients, 4 records
    due.extend([14, 0, 2, 0, 0, 0, 1, 0, 0, 0, 0, 0, 0, 0]); // client 0 sees version 0
    due.extend([26, 0, 3, 0, 0, 1, 0, 0, 0, 0]); // and commits, number 0,
    due.extend([1, 0, 0, 0, 1, 0, 0, 0]); // a write of 1,
    due.extend([3, 0, 0, 0, 0, 0, 0, 0]); // and sees version 1 too
    due.extend([14, 0, 2, 0, 1, 0, 3, 0, 0, 0, 0, 0, 0, 0]); // client 1 sees both
    due.extend([26, 0, 3, 0, 1, 1, 0, 0, 0, 0]); // and commits, number 0,
    due.extend([0, 0, 0, 0, 1, 0, 0, 0]); // a read of 1,
    due.extend([3, 0, 0, 0, 0, 0, 0, 0]); // and sees both still
    let file = encode(&trace_e());
    for length in 0..92 {
        let mut buffer = pattern(length);
        let answer = replay(&file, &mut buffer);
        assert_eq!(answer, Replay::Refused(Refusal::at(17, 0)));
        assert!(untouched(&buffer, 0));
    }
    for length in 92..100 {
        let mut buffer = pattern(length);
        assert_eq!(replay(&file, &mut buffer), Replay::Written(92));
        assert_eq!(buffer[..92], due);
        assert!(untouched(&buffer, 92));
    }
}

/// The lengths that requests E8 and E2 give.
#[test]
fn the_longest_image_and_the_longest_replay() {
    let file = encode(&largest_serial(&mut Random::seeded(1)).trace);
    let length = 8 + (8 + 8 * 32) * 63 + 32 * (4 + 16 * 64);
    assert_eq!([length, image::LONGEST], [49_536; 2]);
    let mut buffer = pattern(LONG);
    let Answer::Judged(judged) = judge(&file, &mut buffer) else {
        panic!()
    };
    assert_eq!(judged.image_len, length);
    assert!(untouched(&buffer, length));

    let length = 12 + 63 * (16 + 32 * 32);
    assert_eq!([length, replay::LONGEST], [65_532; 2]);
    let mut buffer = pattern(LONG_FILE);
    assert_eq!(replay(&file, &mut buffer), Replay::Written(length));
    assert!(untouched(&buffer, length));
}

#[test]
fn every_cut_of_every_trace_is_answered() {
    for example in all() {
        for length in 0..example.bytes.len() {
            let cut = example.bytes[..length].to_vec();
            let Answer::Refused(refusal) = judge(&cut, &mut []) else {
                panic!()
            };
            assert_eq!(refusal.code, 1);
            if length >= 12 {
                let Answer::Refused(refusal) = judge(&with_true_length(cut), &mut []) else {
                    panic!()
                };
                assert!([3, 4, 6, 7].contains(&refusal.code), "{refusal:?}");
            }
        }
    }
}
