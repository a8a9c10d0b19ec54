//! What all calls have in common: the numbers that answers name, and the
//! refusal, with its code and its words.

/// The number of a key, from 0.
#[derive(Clone, Copy, PartialEq, Eq, Debug)]
pub struct Key(pub usize);

/// The place of a version in the list of its key, from 0.
#[derive(Clone, Copy, PartialEq, Eq, Debug)]
pub struct VersionNumber(pub usize);

/// The number of a commit, from 1, those without operations included; 0 is the
/// opening transaction, which wrote version 0 of each key.
#[derive(Clone, Copy, PartialEq, Eq, Debug)]
pub struct CommitNumber(pub usize);

/// Why a call refused, in the same form for all calls: a code with what it
/// names, and 0 for what it does not name.
///
/// | code | refused since | names |
/// |---|---|---|
/// | 1 | the file is cut short, too long, or its first field is not its length | record 0 |
/// | 2 | the header's length, kind, keys or clients are wrong | record 0 |
/// | 3 | a record is cut off, or its length is not the one of its kind | record |
/// | 4 | a record has a kind that is not in the format | record |
/// | 5 | bytes are left after the records that the header counts | the last record |
/// | 6 | a record has a client that is not in the header | record |
/// | 7 | a spare byte, a set, or an operation's kind, key or order is wrong | record |
/// | 8 | there is a 64th commit | record |
/// | 9 | a client's session number does not rise | record |
/// | 10 | a view lacks version 0 or holds a version that does not exist | record, least key |
/// | 11 | a view holds some but not all versions of a writer | record, least missing key and version |
/// | 12 | a shift loses a version that the view held | record, least key and version |
/// | 13 | a read's value is not that of the newest version in the view | record, least key, the version read, its writer |
/// | 14 | a view changed at a key without an operation | record, least key |
/// | 15 | the image buffer is shorter than the image | |
/// | 16 | SER does not accept the trace, so that it has no replay | record, key and version of SER's verdict |
/// | 17 | a buffer is too short for the file, the pieces that came, or 63 commits | |
/// | 18 | the session is closed | |
/// | 19 | no order of the commits gives the image; a ring is shown | |
/// | 20 | the image is misshapen | |
/// | 21 | there are fewer rows than commits | |
/// | 22 | the file that is to be written has more than 65,536 bytes | |
///
/// A call gives these and no others:
///
/// | call | codes |
/// |---|---|
/// | [`judge`](crate::judge) | 1 to 14, then 15 |
/// | [`plain`](crate::plain) | 1 to 14 |
/// | [`replay`](crate::replay) | 1 to 14, then 16, then 17 |
/// | [`short`](crate::short) | 1 to 14, then 22, then 17 |
/// | [`long`](crate::long) | 1 to 14, then 22, then 17 |
/// | [`visibility`](crate::visibility) | 1 to 14, then 15, then 21 |
/// | [`judge_image`](crate::judge_image) | 20, then 17, then 19 |
/// | [`push_piece`](crate::push_piece) | 18 |
/// | [`close_session`](crate::close_session) | 18, then 17, then 1 to 14, then 15 |
///
/// More bytes than the longest file has are code 1 before 17. Of several that
/// are due the first is answered, in the order that `docs/FORMAT.md` gives; there
/// it also stands what to do about each.
#[derive(Clone, Copy, PartialEq, Eq, Debug)]
pub struct Refusal {
    pub code: u8,
    pub record: usize,
    pub key: Key,
    pub version: VersionNumber,
    /// The commit that wrote the version, which code 13 alone names.
    pub writer: CommitNumber,
}

/// The words of a refusal, for every call: code, record, key, version and
/// writer.
pub const REFUSAL_WORDS: usize = 5;

/// The code of a call whose words are too few for its answer: nothing was done,
/// and nothing is written.
pub const NO_ROOM: u64 = 255;

impl Refusal {
    /// The refusal whose words a call has left.
    pub(crate) fn of(words: &[u64]) -> Refusal {
        Refusal {
            code: words[0] as u8,
            record: words[1] as usize,
            key: Key(words[2] as usize),
            version: VersionNumber(words[3] as usize),
            writer: CommitNumber(words[4] as usize),
        }
    }
}
