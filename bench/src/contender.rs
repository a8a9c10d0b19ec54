//! A judge to be timed, and what it answers.

use crate::proved::proved;
use crate::traces::Trace;
use crate::{judge_image, Answer, Bare, Judge, Refusal, Replay, Session};
use model::bare::{is_ring, links, order_or_ring, shaped, ROOM};
use model::store::{CommitNumber, Store};
use model::words::{judge_words, replay_words, shown_words, JUDGE as WORDS};
use model::{image, replay, Call, Edition};

pub trait Contender {
    fn name(&self) -> &'static str;

    /// The call that is timed: its answer is kept.
    fn call(&mut self, timed: &Timed, file: &[u8], buffer: &mut [u8]);

    /// The words of the answer that is kept of a call, and zeros up to the most
    /// words.
    fn words(&self, call: Asked) -> Vec<u64>;
}

/// What is asked: a call on a trace file, or the one on an image.
#[derive(Clone, Copy, PartialEq, Eq, Debug)]
pub enum Asked {
    Of(Call),
    Image,
}

/// The ordinary judge, and then the proved one if it is linked in.
pub fn contenders() -> Vec<Box<dyn Contender>> {
    let nothing = Refusal::at(1, 0);
    let ordinary: Box<dyn Contender> = Box::new(Ordinary {
        judge: Judge::new(),
        session: Session::open(),
        answer: Answer::Refused(nothing),
        replay: Replay::Refused(nothing),
        bare: Bare::Refused(nothing),
        image: vec![0; image::LONGEST],
    });
    [ordinary].into_iter().chain(proved()).collect()
}

struct Ordinary {
    judge: Judge,
    session: Session,
    answer: Answer,
    replay: Replay,
    bare: Bare,
    /// For the call that writes none.
    image: Vec<u8>,
}

impl Contender for Ordinary {
    fn name(&self) -> &'static str {
        "ordinary"
    }

    fn call(&mut self, timed: &Timed, file: &[u8], buffer: &mut [u8]) {
        let call = match timed.call {
            Asked::Of(call) => call,
            Asked::Image => {
                self.bare = judge_image(file, buffer);
                return;
            }
        };
        match call {
            Call::Judge => self.answer = self.judge.judge(file, buffer),
            // It has one engine.
            Call::Plain => self.answer = self.judge.judge(file, &mut self.image),
            Call::Replay => self.replay = self.judge.replay(file, buffer),
            Call::Short => self.replay = self.judge.convert(Edition::Short, file, buffer),
            Call::Long => self.replay = self.judge.convert(Edition::Long, file, buffer),
            Call::Port => {
                self.session.reopen();
                for piece in file.chunks(timed.at_a_time) {
                    self.session.push(piece).expect("it is open");
                }
                self.answer = self.session.close(&mut self.judge, buffer);
            }
        }
    }

    fn words(&self, call: Asked) -> Vec<u64> {
        let mut words = match call {
            Asked::Of(Call::Judge | Call::Port | Call::Plain) => judge_words(&self.answer.into()),
            Asked::Of(_) => replay_words(&self.replay.into()),
            Asked::Image => shown_words(&self.bare.into()),
        };
        words.resize(WORDS, 0);
        words
    }
}

/// A call with a buffer of some length, and the code that it must answer; and
/// how long the pieces are in which it is given a file, if it takes pieces.
#[derive(Clone, Copy)]
pub struct Timed {
    pub name: &'static str,
    pub call: Asked,
    pub at_a_time: usize,
    pub room: usize,
    pub code: u64,
}

pub const JUDGE: Timed = Timed {
    name: "judge",
    call: Asked::Of(Call::Judge),
    at_a_time: usize::MAX,
    room: image::LONGEST,
    code: 0,
};

/// The judge where it may write nothing: the trace is taken, and that is all.
pub const TAKING: Timed = Timed {
    name: "taking",
    room: 0,
    code: 15,
    ..JUDGE
};

/// The plain second engine, which writes no image.
pub const PLAIN: Timed = Timed {
    name: "plain",
    call: Asked::Of(Call::Plain),
    room: 0,
    ..JUDGE
};

pub const REPLAY: Timed = Timed {
    name: "replay",
    call: Asked::Of(Call::Replay),
    room: replay::LONGEST,
    ..JUDGE
};

/// The judge of a file that comes in pieces of 4,096 bytes, and of 64.
pub const LARGE_PIECES: Timed = Timed {
    name: "in 4,096",
    call: Asked::Of(Call::Port),
    at_a_time: 4_096,
    ..JUDGE
};

pub const SMALL_PIECES: Timed = Timed {
    name: "in 64",
    at_a_time: 64,
    ..LARGE_PIECES
};

pub const SHORT: Timed = Timed {
    name: "short",
    call: Asked::Of(Call::Short),
    room: Store::MAX_BYTES,
    ..JUDGE
};

pub const LONG: Timed = Timed {
    name: "long",
    call: Asked::Of(Call::Long),
    ..SHORT
};

/// The judge of an image, given the image of a trace.
pub const IMAGE: Timed = Timed {
    name: "order",
    call: Asked::Image,
    room: ROOM,
    ..JUDGE
};

/// Fails unless every contender shows of every image what the model says: the
/// same order, or a ring.
pub fn check_images(contenders: &mut [Box<dyn Contender>], images: &[Trace]) {
    for (place, image) in images.iter().enumerate() {
        let store = shaped(&image.bytes).expect("the image of a trace");
        let links = links(&store);
        let due = order_or_ring(&store, &links);
        for contender in contenders.iter_mut() {
            let name = format!("{}, image {place}", contender.name());
            let mut shown = [0; ROOM];
            contender.call(&IMAGE, &image.bytes, &mut shown);
            let words = contender.words(IMAGE.call);
            let shown = shown[..words[1] as usize].iter();
            let shown: Vec<CommitNumber> = shown.map(|&byte| CommitNumber(byte.into())).collect();
            match &due {
                model::bare::Bare::Order(order) => {
                    assert_eq!((words[0], &shown), (0, order), "{name}")
                }
                _ => assert!(words[0] == 19 && is_ring(&links, &shown), "{name}"),
            }
        }
    }
}

/// Fails unless every contender answers a call for every trace with the code
/// that is due, and all of them with the same words and the same bytes in the
/// buffer.
pub fn check(contenders: &mut [Box<dyn Contender>], timed: &Timed, traces: &[Trace]) {
    for (place, trace) in traces.iter().enumerate() {
        let mut first = None;
        for contender in contenders.iter_mut() {
            let mut buffer = vec![0xa5; timed.room];
            contender.call(timed, &trace.bytes, &mut buffer);
            let words = contender.words(timed.call);
            let name = format!("{}, {}, trace {place}", timed.name, contender.name());
            assert_eq!(words[0], timed.code, "{name}: another code");
            let (first_words, first_bytes) = first.get_or_insert((words.clone(), buffer.clone()));
            assert_eq!(words, *first_words, "{name}: other words");
            assert!(buffer == *first_bytes, "{name}: other bytes");
        }
    }
}
