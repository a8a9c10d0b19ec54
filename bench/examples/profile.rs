//! Runs one judge on the timed traces again and again, for a profiler:
//! `profile ordinary|proved [all|serial|snapshot|wild] [ROUNDS]
//! [judge|replay|"in 4,096"|"in 64"|short|long] [KEYS] [short]`, over 16 keys and
//! on long files if nothing else is said.

use bench::contender::{contenders, JUDGE, LARGE_PIECES, LONG, REPLAY, SHORT, SMALL_PIECES};
use bench::form::COMMITS;
use bench::traces::{in_edition, timed};
use model::Edition;
use std::env::args;
use std::hint::black_box;

fn main() {
    let judge = args().nth(1).expect("the judge: ordinary or proved");
    let style = args().nth(2).unwrap_or("all".into());
    let rounds: usize = args()
        .nth(3)
        .map_or(100, |text| text.parse().expect("a number of rounds"));
    let call = args().nth(4).unwrap_or("judge".into());
    let calls = [JUDGE, REPLAY, LARGE_PIECES, SMALL_PIECES, SHORT, LONG];
    let call = calls.into_iter().find(|timed| timed.name == call);
    let call = call.expect("the call: judge, replay, the pieces, short or long");
    let keys: usize = args()
        .nth(5)
        .map_or(16, |text| text.parse().expect("a number of keys"));
    let mut traces = timed(COMMITS, keys);
    traces.retain(|trace| style == "all" || style == trace.style.name());
    if args().nth(6).is_some_and(|edition| edition == "short") {
        traces = in_edition(&traces, Edition::Short);
    }
    let mut contenders = contenders();
    let contender = contenders
        .iter_mut()
        .find(|contender| contender.name() == judge);
    let contender = contender.expect("a judge that is linked in");
    let mut buffer = vec![0; call.room];
    for _ in 0..rounds {
        for trace in &traces {
            contender.call(&call, black_box(&trace.bytes), &mut buffer);
        }
    }
}
