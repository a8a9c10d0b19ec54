//! Do the generated sessions tell a wrong one from the right one? Each slip here
//! takes a piece wrongly, or closes wrongly; some session must go otherwise.

use model::generate::{script, Script};
use model::met::all_noticed;
use model::port::{close, push, Plain, Record, CLOSED, MODEL};
use model::store::Store;
use model::{judge, Answer, Refusal};

/// How many bytes a file may have.
const MOST: usize = Store::MAX_BYTES;

type Push = fn(&mut Record, &mut [u8], &[u8]) -> u8;
type Close = fn(&mut Record, &[u8], &mut [u8]) -> Answer;

#[test]
fn slips_are_noticed() {
    let pushes: [(&str, Push); 11] = [
        ("each piece at the start", at_the_start),
        ("a piece over the last byte", over_the_last),
        ("a piece in front of the others", in_front),
        ("an empty piece is a byte", empty_is_a_byte),
        (
            "a piece that does not fit whole is dropped",
            whole_or_nothing,
        ),
        ("bytes past the limit kept over others", kept_over_others),
        ("bytes past the limit kept behind", kept_behind),
        ("bytes past the limit not counted", not_counted),
        ("a count that wraps", wraps),
        ("a count of any words is kept", not_bounded),
        ("a piece after the close is kept", kept_after_the_close),
    ];
    let closes: [(&str, Close); 9] = [
        ("a second close answers again", answers_again),
        (
            "a close that was refused has not closed",
            only_judged_closes,
        ),
        ("a close with 15 has not closed", fifteen_leaves_open),
        ("a close forgets the count", forgets),
        ("only 1 is closed", only_1_is_closed),
        ("what the first field says", first_field),
        ("what the buffer has", what_is_there),
        ("17 before 1", short_before_long),
        (
            "17 where the buffer is not of the longest",
            only_the_longest,
        ),
    ];
    let pushes = pushes.map(|(name, push)| (name, Plain { push, ..MODEL }));
    let closes = closes.map(|(name, close)| (name, Plain { close, ..MODEL }));
    let slips: Vec<(&str, Plain)> = pushes.into_iter().chain(closes).collect();
    let mut noticed = vec![0; slips.len()];
    let scripts = 600;
    for seed in 0..scripts {
        let script = script(seed);
        for (slip, noticed) in slips.iter().zip(&mut noticed) {
            *noticed += usize::from(goes_otherwise(&script, &slip.1));
        }
    }
    println!("{scripts} sessions");
    let names = slips.into_iter().map(|(name, _)| name);
    all_noticed(&names.zip(noticed).collect::<Vec<_>>());
}

/// Does something differ after some call?
fn goes_otherwise(script: &Script, slip: &Plain) -> bool {
    let (mut wrong, mut right) = (script.caller.clone(), script.caller.clone());
    script.moves.iter().any(|next| {
        let (left, due) = (wrong.does(slip, next), right.does(&MODEL, next));
        left != due || wrong != right
    })
}

/// Where it is open, the piece goes to another place.
fn placed(record: &mut Record, kept: &mut [u8], piece: &[u8], place: fn(usize) -> usize) -> u8 {
    let count = record.total;
    let code = push(record, &mut kept.to_vec(), piece);
    let at = place(count.min(MOST as u64 + 1) as usize);
    let mut elsewhere = Record {
        total: at as u64,
        ..*record
    };
    push(&mut elsewhere, kept, piece);
    code
}

fn at_the_start(record: &mut Record, kept: &mut [u8], piece: &[u8]) -> u8 {
    placed(record, kept, piece, |_| 0)
}

fn over_the_last(record: &mut Record, kept: &mut [u8], piece: &[u8]) -> u8 {
    placed(record, kept, piece, |count| count.saturating_sub(1))
}

fn kept_over_others(record: &mut Record, kept: &mut [u8], piece: &[u8]) -> u8 {
    placed(record, kept, piece, |count| count % MOST)
}

fn in_front(record: &mut Record, kept: &mut [u8], piece: &[u8]) -> u8 {
    let end = kept.len().min(MOST);
    if record.closed == 0 && piece.len() <= end {
        kept[..end].rotate_right(piece.len());
    }
    at_the_start(record, kept, piece)
}

fn empty_is_a_byte(record: &mut Record, kept: &mut [u8], piece: &[u8]) -> u8 {
    match piece {
        [] => push(record, &mut [], &[0]),
        _ => push(record, kept, piece),
    }
}

fn whole_or_nothing(record: &mut Record, kept: &mut [u8], piece: &[u8]) -> u8 {
    let fits = record.total.saturating_add(piece.len() as u64) <= kept.len().min(MOST) as u64;
    let kept = if fits { kept } else { &mut [] };
    push(record, kept, piece)
}

fn kept_behind(record: &mut Record, kept: &mut [u8], piece: &[u8]) -> u8 {
    let from = record.total.min(kept.len() as u64) as usize;
    let fitting = piece.len().min(kept.len() - from);
    if record.closed == 0 {
        kept[from..from + fitting].copy_from_slice(&piece[..fitting]);
    }
    push(record, kept, piece)
}

fn not_counted(record: &mut Record, kept: &mut [u8], piece: &[u8]) -> u8 {
    let code = push(record, kept, piece);
    record.total = record.total.min(MOST as u64);
    code
}

fn wraps(record: &mut Record, kept: &mut [u8], piece: &[u8]) -> u8 {
    let count = record.total.wrapping_add(piece.len() as u64);
    let code = push(record, kept, piece);
    if code == 0 {
        record.total = count.min(MOST as u64 + 1);
    }
    code
}

fn not_bounded(record: &mut Record, kept: &mut [u8], piece: &[u8]) -> u8 {
    let count = record.total;
    let code = push(record, kept, piece);
    record.total = record.total.max(count);
    code
}

fn kept_after_the_close(record: &mut Record, kept: &mut [u8], piece: &[u8]) -> u8 {
    let mut open = Record {
        closed: 0,
        ..*record
    };
    push(&mut open, kept, piece);
    push(record, kept, piece)
}

fn answers_again(record: &mut Record, kept: &[u8], image: &mut [u8]) -> Answer {
    record.closed = 0;
    close(record, kept, image)
}

fn only_judged_closes(record: &mut Record, kept: &[u8], image: &mut [u8]) -> Answer {
    let closed = record.closed;
    let answer = close(record, kept, image);
    if answer.code() != 0 {
        record.closed = closed;
    }
    answer
}

fn fifteen_leaves_open(record: &mut Record, kept: &[u8], image: &mut [u8]) -> Answer {
    let closed = record.closed;
    let answer = close(record, kept, image);
    if answer.code() == 15 {
        record.closed = closed;
    }
    answer
}

fn forgets(record: &mut Record, kept: &[u8], image: &mut [u8]) -> Answer {
    let answer = close(record, kept, image);
    record.total = 0;
    answer
}

fn only_1_is_closed(record: &mut Record, kept: &[u8], image: &mut [u8]) -> Answer {
    if record.closed != 1 {
        record.closed = 0;
    }
    close(record, kept, image)
}

/// A close of other bytes than those that came.
fn closed_with(record: &mut Record, file: &[u8], image: &mut [u8]) -> Answer {
    if record.closed != 0 {
        return Answer::Refused(Refusal::at(CLOSED, 0));
    }
    record.closed = 1;
    judge(file, image)
}

fn first_field(record: &mut Record, kept: &[u8], image: &mut [u8]) -> Answer {
    let field = kept.first_chunk().map(|field| u32::from_le_bytes(*field));
    match field.and_then(|length| kept.get(..length as usize)) {
        Some(file) if record.total <= MOST as u64 => closed_with(record, file, image),
        _ => close(record, kept, image),
    }
}

fn what_is_there(record: &mut Record, kept: &[u8], image: &mut [u8]) -> Answer {
    if record.total <= kept.len() as u64 || record.total > MOST as u64 {
        return close(record, kept, image);
    }
    closed_with(record, kept, image)
}

fn short_before_long(record: &mut Record, kept: &[u8], image: &mut [u8]) -> Answer {
    let closed = record.closed;
    let answer = close(record, kept, image);
    if closed == 0 && record.total > kept.len() as u64 {
        return Answer::Refused(Refusal::at(17, 0));
    }
    answer
}

fn only_the_longest(record: &mut Record, kept: &[u8], image: &mut [u8]) -> Answer {
    if record.closed == 0 && record.total <= MOST as u64 && kept.len() < MOST {
        record.closed = 1;
        return Answer::Refused(Refusal::at(17, 0));
    }
    close(record, kept, image)
}
