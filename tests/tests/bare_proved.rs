//! The proved judge of bare images against the model: the call, with buffers of
//! many lengths, on generated and spoiled images; and the program `order`.

use consistency::{judge_image_words, IMAGE_WORDS, MOST_COMMITS, NO_ROOM};
use model::bare::{bare, is_ring, line, links, shaped, Bare, ROOM};
use model::beside::compare_image;
use model::buffer::{pattern, untouched};
use model::files::{at, files};
use model::generate::{image_case, long_ring, LONGEST_RING};
use model::image::image;
use model::met::images::Images;
use model::programs::{built, run, said, Program, Said};
use model::random::Random;
use model::store::{CommitNumber, Store};
use model::{outcome, Call};
use std::collections::BTreeMap;
use std::fs::{File, OpenOptions};
use std::process::{Command, Stdio};
use std::thread;

const IMAGES: u64 = 60_000;
const THREADS: u64 = 2;

/// Every length of the buffer that is tried with an image.
const LENGTHS: [usize; 6] = [0, 1, ROOM - 1, ROOM, ROOM + 1, ROOM + 40];

fn compare_from(first: u64) -> Images {
    let seeds = (first..IMAGES).step_by(THREADS as usize);
    Images::of(seeds, |seed, case, bare| {
        let name = format!("seed {seed}");
        LENGTHS
            .map(|length| compare_image(&name, &case.bytes, bare, length))
            .to_vec()
    })
}

#[test]
fn the_proved_call_answers_as_the_model() {
    assert_eq!(MOST_COMMITS, ROOM);
    let threads: Vec<_> = (0..THREADS)
        .map(|first| thread::spawn(move || compare_from(first)))
        .collect();
    let mut met = Images::default();
    for thread in threads {
        met.add(thread.join().expect("an image is answered otherwise"));
    }
    met.print();
    met.lacks_nothing();
}

/// The image of each example trace that is taken.
fn example_images() -> Vec<(&'static str, Vec<u8>)> {
    let files = files().into_iter();
    files
        .filter_map(|(name, example)| Some((name, outcome(&example.bytes).ok()?.image)))
        .collect()
}

/// Images of some bytes that are not misshapen.
fn small_images(number: usize, bytes: usize) -> Vec<Vec<u8>> {
    let generated = (0..).map(|seed| image_case(seed).bytes);
    let small = generated.filter(|image| image.len() <= bytes && shaped(image).is_some());
    let examples = example_images().into_iter().map(|(_, image)| image);
    let examples = examples.filter(|image| image.len() <= bytes);
    examples.chain(small.take(number)).collect()
}

/// Compares spoiled images; fails unless just these codes were met.
fn compare_spoiled(spoiled: &str, images: impl Iterator<Item = Vec<u8>>, codes: &[u8]) {
    let mut met: BTreeMap<u8, usize> = BTreeMap::new();
    for (place, image) in images.enumerate() {
        let bare = bare(&image);
        let code = compare_image(&format!("{spoiled} {place}"), &image, &bare, ROOM);
        *met.entry(code).or_default() += 1;
    }
    println!("{spoiled} by code: {met:?}");
    assert_eq!(met.into_keys().collect::<Vec<u8>>(), codes);
}

#[test]
fn every_truncation() {
    let images = small_images(60, 600).into_iter();
    let cut = images.flat_map(|image| {
        let lengths = 0..image.len();
        lengths.flat_map(move |length| {
            let cut = image[..length].to_vec();
            let mut true_length = cut.clone();
            if length >= 4 {
                true_length[..4].copy_from_slice(&(length as u32).to_le_bytes());
            }
            [cut, true_length]
        })
    });
    compare_spoiled("truncation", cut, &[20]);
}

#[test]
fn every_bit_flipped() {
    let images = small_images(30, 500).into_iter();
    let flipped = images.flat_map(|image| {
        (0..8 * image.len()).map(move |bit| {
            let mut flipped = image.clone();
            flipped[bit / 8] ^= 1 << (bit % 8);
            flipped
        })
    });
    compare_spoiled("flipped bit", flipped, &[0, 19, 20]);
}

/// Each byte of the head with each value, and the first number of versions.
#[test]
fn lying_sizes() {
    let images = small_images(60, 2_000).into_iter();
    let lying = images.flat_map(|image| {
        let first_key = 8 + usize::from(image[5]) * (8 + 8 * usize::from(image[4]));
        let places = [0, 1, 2, 3, 4, 5, 6, 7].into_iter();
        let places = places.chain(first_key..first_key + 4);
        let places: Vec<usize> = places.collect();
        places.into_iter().flat_map(move |place| {
            let image = image.clone();
            (0..=255).map(move |byte| {
                let mut lying = image.clone();
                lying[place] = byte;
                lying
            })
        })
    });
    compare_spoiled("lying size", lying, &[0, 19, 20]);
}

#[test]
fn without_room_for_the_words_nothing_is_done() {
    for (name, image) in example_images() {
        for room in 0..IMAGE_WORDS {
            let mut buffer = pattern(ROOM);
            let mut words = vec![7; room];
            let code = judge_image_words(&image, &mut buffer, &mut words);
            assert_eq!(code, NO_ROOM, "{name}");
            assert!(words.iter().all(|&word| word == 7), "{name}");
            assert!(untouched(&buffer, 0), "{name}");
        }
    }
}

/// What the program says of an input that comes in pieces.
fn says(input: &[u8], at_a_time: usize) -> Said {
    said(run(&mut Command::new(built("order")), input, at_a_time))
}

/// The line that is printed for an image, which it is held to; a ring is looked
/// at as the ring that it is.
fn check_line(name: &str, image: &[u8], (printed, told): Said) {
    let printed = String::from_utf8(printed).expect("text");
    assert_eq!(told, "", "{name}");
    let Bare::Ring(_) = bare(image) else {
        assert_eq!(printed, line(&bare(image)), "{name}");
        return;
    };
    let numbers = printed.strip_prefix("ring").expect("a ring");
    let numbers = numbers.strip_suffix('\n').expect("a line");
    let number = |word: &str| CommitNumber(word.parse().expect("a number"));
    let ring: Vec<CommitNumber> = numbers.split(' ').skip(1).map(number).collect();
    let store = shaped(image).expect("it is an image");
    assert!(is_ring(&links(&store), &ring), "{name}: {printed}");
    assert_eq!(printed, line(&Bare::Ring(ring)), "{name}");
}

#[test]
fn the_program_on_generated_images() {
    for seed in 0..400 {
        let image = image_case(seed).bytes;
        check_line(&format!("seed {seed}"), &image, says(&image, usize::MAX));
    }
    for length in [3, 4, 17, LONGEST_RING] {
        let image = image(&long_ring(&mut Random::seeded(1), length));
        check_line("long ring", &image, says(&image, usize::MAX));
    }
    let largest = (0..)
        .map(image_case)
        .find(|case| case.kind == "the longest");
    let largest = largest.expect("one of them").bytes;
    check_line("the longest", &largest, says(&largest, 1_000));
    for more in [1, 2, 100, 65_536, 300_000] {
        let mut long = largest.clone();
        long.resize(largest.len() + more, 0);
        check_line("too long", &long, says(&long, usize::MAX));
    }
}

/// `image` and `order` make a pipe.
#[test]
fn from_one_program_to_the_other() {
    for (name, example) in files() {
        let (image, told) = said(run(
            &mut Command::new(Program::Image.path()),
            &example.bytes,
            usize::MAX,
        ));
        assert_eq!(told.is_empty(), outcome(&example.bytes).is_ok(), "{name}");
        check_line(name, &image, says(&image, 7));
    }
    for seed in 0..60 {
        let file = model::generate::file(seed);
        let outcome = outcome(&file);
        if let Some(due) = Call::Judge.written(&outcome) {
            let image = said(run(
                &mut Command::new(Program::Image.path()),
                &file,
                usize::MAX,
            ));
            assert!(image.0 == due, "seed {seed}");
            check_line(&format!("seed {seed}"), due, says(&image.0, usize::MAX));
        }
    }
}

/// The program on the image of a trace, with its streams redirected.
fn redirected(line: &str) -> Said {
    let output = Command::new("sh")
        .arg("-c")
        .arg(format!("exec \"$0\" {line}"))
        .arg(built("order"))
        .stdin(File::open(at("crates/order/stdin")).expect("an image"))
        .output()
        .expect("there is a shell");
    said(output)
}

#[test]
fn streams_that_fail() {
    let told = |line: &str| (Vec::new(), format!("{line}\n"));
    let refused = b"refused 20 record 0 key 0 version 0\n".to_vec();
    assert_eq!(redirected(""), (b"order 1 2\n".to_vec(), String::new()));
    assert_eq!(redirected("< /dev/null"), (refused, String::new()));
    let closed = told("standard input: Bad file descriptor");
    assert_eq!(redirected("<&-"), closed);
    assert_eq!(redirected("< /"), told("standard input: Is a directory"));
    let closed = told("standard output: Bad file descriptor");
    assert_eq!(redirected(">&-"), closed);
    let full = OpenOptions::new().write(true).open("/dev/full");
    let child = Command::new(built("order"))
        .stdin(File::open(at("crates/order/stdin")).expect("an image"))
        .stdout(full.expect("a device that is full"))
        .stderr(Stdio::piped())
        .spawn()
        .expect("the program starts");
    let output = child.wait_with_output().expect("the program ends");
    let due = told("standard output: No space left on device");
    assert_eq!(said(output), due);
}

/// A store of no commits has an order of none.
#[test]
fn no_commits() {
    for keys in 1..=Store::MAX_KEYS {
        let image = image(&Store::opening(keys));
        compare_image("opening", &image, &bare(&image), ROOM);
        assert_eq!(says(&image, 1), (b"order\n".to_vec(), String::new()));
    }
}
