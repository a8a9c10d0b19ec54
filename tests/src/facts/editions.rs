//! Request E6, what holds of a taken file and of its trace in either edition.

use crate::buffer::pattern;
use crate::form::u16_at;
use crate::generate::editions::is_of;
use crate::generate::record_places;
use crate::store::Store;
use crate::{answer, outcome, Edition, Refusal, Taken};

/// "The written file gets the same answer and image", for every buffer; "long,
/// short, long returns the same bytes"; an edition of an edition is that of the
/// trace; a short file lists no key of a shift that does not change; code 22 is
/// given where the file would be too long.
pub fn editions_hold(file: &[u8], taken: &Taken) -> Result<(), String> {
    for edition in Edition::ALL {
        match taken.converted(edition) {
            Ok(written) => written_holds(edition, written, taken)?,
            Err(refusal) if *refusal != Refusal::at(22, 0) => {
                return Err(format!("{edition:?}: {refusal:?}"));
            }
            Err(_) => {}
        }
    }
    if is_of(file, Edition::Long) && taken.long.as_deref() != Ok(file) {
        return Err("the long file of a long file is another one".to_string());
    }
    let back = taken.short.as_ref().map(|short| outcome(short));
    if let Ok(Ok(Taken { long: Ok(back), .. })) = back {
        if is_of(file, Edition::Long) && back != file {
            return Err("long, short, long gives other bytes".to_string());
        }
    }
    Ok(())
}

/// What holds of a file that was written in an edition.
fn written_holds(edition: Edition, written: &[u8], taken: &Taken) -> Result<(), String> {
    let fails = |what: &str| Err(format!("{edition:?}: {what}"));
    if written.len() > Store::MAX_BYTES {
        return fails("the file is too long");
    }
    if !is_of(written, edition) {
        return fails("a record of the other edition");
    }
    let again = outcome(written);
    for room in [
        0,
        taken.image.len() - 1,
        taken.image.len(),
        taken.image.len() + 9,
    ] {
        let (mut image, mut due) = (pattern(room), pattern(room));
        let given = answer(&Ok(taken.clone()), &mut due);
        if answer(&again, &mut image) != given || image != due {
            return fails("another answer, or another image");
        }
    }
    let Ok(again) = again else {
        return fails("it is refused");
    };
    if again.store != taken.store || again.replay != taken.replay {
        return fails("another store, or another replay");
    }
    for other in Edition::ALL {
        if again.converted(other) != taken.converted(other) {
            return fails("it is converted otherwise");
        }
    }
    if edition == Edition::Short && !lists_what_changes(written) {
        return fails("a key of a shift that does not change is listed");
    }
    Ok(())
}

/// Whether each kind 6 of a short file lists only keys whose masks are other
/// ones than those that its client has, found from the bytes alone.
fn lists_what_changes(file: &[u8]) -> bool {
    let mut views = [[1u64; Store::MAX_KEYS]; Store::MAX_CLIENTS];
    for place in record_places(file) {
        if place == file.len() {
            break;
        }
        let record = &file[place..place + usize::from(u16_at(file, place))];
        let is_shift = record[2] == 6;
        let (keys, masks): (Vec<usize>, usize) = if is_shift {
            let set = u32::from_le_bytes([record[6], record[7], record[8], record[9]]);
            ((0..32).filter(|key| set >> key & 1 == 1).collect(), 10)
        } else {
            let operations = record[10..].chunks_exact(8).take(record[5].into());
            let mut keys: Vec<usize> = operations.map(|bytes| bytes[1].into()).collect();
            keys.dedup();
            (keys, 10 + 8 * usize::from(record[5]))
        };
        let masks = record[masks..].chunks_exact(8);
        let masks = masks.map(|mask| u64::from_le_bytes(mask.try_into().expect("eight bytes")));
        let view = &mut views[usize::from(record[4])];
        for (key, mask) in keys.into_iter().zip(masks) {
            if is_shift && view[key] == mask {
                return false;
            }
            view[key] = mask;
        }
    }
    true
}
