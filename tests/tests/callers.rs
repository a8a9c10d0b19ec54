//! Callers in Rust, C and C++: the examples compile without a warning, they say
//! what is due, and they stand in the README as they are. The header and the
//! crate for Rust have the same numbers and tables, and no call takes more
//! stack than they say.

use consistency::Bare;
use model::files::{at, files, report_of};
use model::generate::{exactly_full, file, growing_case, image_case, largest, largest_serial};
use model::levels::{place_of, LEVELS};
use model::port::CLOSED;
use model::programs::{printed, run, Said};
use model::random::Random;
use model::store::Store;
use model::trace::encode;
use model::visibility::TOO_FEW_ROWS;
use model::{convert, judge_with_room, replay, Answer, Call, Edition, Replay, Verdict};
use std::collections::BTreeSet;
use std::fs::{self, File, OpenOptions};
use std::io::Write;
use std::path::{Path, PathBuf};
use std::process::{Command, Stdio};
use std::thread;

/// What `keeps_si` must print for a file: whether it kept SI.
fn keeps_si(file: &[u8]) -> Said {
    let text = match judge_with_room(file) {
        Answer::Refused(refusal) => {
            format!("code {} at record {}\n", refusal.code, refusal.record)
        }
        Answer::Judged(report) => match report.verdicts[place_of("SI")] {
            Verdict::Accepted => "yes\n".to_string(),
            Verdict::Refused { record, .. } => format!("no, see record {record}\n"),
        },
    };
    (text.into_bytes(), String::new())
}

/// What `print_report` and `report_pieces` must print.
fn print_report(file: &[u8]) -> Said {
    (report_of(file).into_bytes(), String::new())
}

/// What `write_replay` must write: the replay, or why there is none.
fn write_replay(file: &[u8]) -> Said {
    let mut buffer = vec![0; consistency::LONGEST_REPLAY];
    let answer = replay(file, &mut buffer);
    told(answer, buffer)
}

/// What `write_short` must write: the short edition, or why there is none.
fn write_short(file: &[u8]) -> Said {
    let mut buffer = vec![0; consistency::LONGEST_FILE];
    let answer = convert(Edition::Short, file, &mut buffer);
    told(answer, buffer)
}

/// A file that was written into a buffer, or why there is none.
fn told(answer: Replay, buffer: Vec<u8>) -> Said {
    match answer {
        Replay::Refused(refusal) => {
            let told = format!("code {} at record {}\n", refusal.code, refusal.record);
            (Vec::new(), told)
        }
        Replay::Written(length) => (buffer[..length].to_vec(), String::new()),
    }
}

/// An example says what is due for each file, and its status says if it told of
/// something; it ends on an input that does not, and takes no failure for an
/// answer.
fn check(example: &Path, due: fn(&[u8]) -> Said) {
    for (name, trace) in files() {
        check_one(example, name, &trace.bytes, due(&trace.bytes));
    }
    ends(example, due(&[0; consistency::LONGEST_FILE + 1]));
    takes_no_failure(example);
}

fn check_one(example: &Path, name: &str, input: &[u8], (written, told): Said) {
    let output = run(&mut Command::new(example), input, usize::MAX);
    assert_eq!(output.stdout, written, "{name}");
    assert_eq!(String::from_utf8_lossy(&output.stderr), told, "{name}");
    assert_eq!(output.status.success(), told.is_empty(), "{name}");
}

/// The same of `print_order`, whose input is an image; the ring is that of the
/// call in Rust.
fn check_order(example: &Path) {
    for seed in 0..100 {
        let image = image_case(seed).bytes;
        check_one(
            example,
            &format!("seed {seed}"),
            &image,
            print_order(&image),
        );
    }
    ends(example, print_order(&[]));
    takes_no_failure(example);
}

/// What `print_order` must print.
fn print_order(image: &[u8]) -> Said {
    let mut shown = [0; consistency::MOST_COMMITS];
    let text = match consistency::judge_image(image, &mut shown) {
        Bare::Refused(why) => format!("code {}\n", why.code),
        Bare::Order(commits) => format!("in this order: {:?}\n", &shown[..commits]),
        Bare::Ring(commits) => format!("in none, see {:?}\n", &shown[..commits]),
    };
    (text.into_bytes(), String::new())
}

fn takes_no_failure(example: &Path) {
    let folder = File::open(at("examples")).expect("a folder");
    fails(Command::new(example).stdin(folder));
    let file = File::open(at("examples/E-lost-view")).expect("a trace file");
    let full = OpenOptions::new().write(true).open("/dev/full");
    fails(
        Command::new(example)
            .stdin(file)
            .stdout(full.expect("a full device")),
    );
}

/// It has an answer long before it has read all of 64 MiB.
fn ends(example: &Path, (written, told): Said) {
    let mut child = Command::new(example)
        .stdin(Stdio::piped())
        .stdout(Stdio::piped())
        .stderr(Stdio::piped())
        .spawn()
        .expect("the example starts");
    let mut stdin = child.stdin.take().expect("it is piped");
    let part = [0; 65_536];
    let taken = (0..1024).take_while(|_| stdin.write_all(&part).is_ok());
    assert!(taken.count() < 1024, "{} reads on", example.display());
    drop(stdin);
    let output = child.wait_with_output().expect("the example ends");
    assert_eq!(output.stdout, written);
    assert_eq!(String::from_utf8_lossy(&output.stderr), told);
}

/// It prints nothing, and its status says that it failed.
fn fails(example: &mut Command) {
    let output = example.output().expect("the example starts");
    assert!(!output.status.success(), "{example:?}");
    assert_eq!(String::from_utf8_lossy(&output.stdout), "", "{example:?}");
}

fn succeeds(command: &mut Command) {
    let status = command
        .status()
        .unwrap_or_else(|error| panic!("{command:?}: {error}"));
    assert!(status.success(), "{command:?}: {status}");
}

fn room() -> PathBuf {
    PathBuf::from(env!("CARGO_TARGET_TMPDIR"))
}

/// A compiler with these words, and with every warning an error.
fn compiler(words: &str) -> Command {
    let mut words = words.split(' ');
    let mut compiler = Command::new(words.next().expect("the name of a compiler"));
    compiler.args(words);
    compiler.args(["-pedantic", "-Wall", "-Wextra", "-Werror", "-O1"]);
    compiler.arg("-I").arg(at("bindings/c"));
    compiler
}

/// The program of this name, compiled from a source with the library.
fn compiled(name: &str, words: &str, source: &str) -> PathBuf {
    let program = room().join(name);
    succeeds(
        compiler(words)
            .arg("-o")
            .arg(&program)
            .arg(at(source))
            .args(["-x", "none"])
            .arg(at("target/staticlib/libconsistency.a")),
    );
    program
}

#[test]
fn what_the_examples_must_say() {
    let all: Vec<Vec<u8>> = files().into_iter().map(|(_, trace)| trace.bytes).collect();
    let printed = |text: &str| (text.as_bytes().to_vec(), String::new());
    assert_eq!(keeps_si(&all[1]), printed("no, see record 2\n"));
    assert_eq!(keeps_si(&all[3]), printed("yes\n"));
    assert_eq!(keeps_si(&all[11]), printed("code 1 at record 0\n"));
    let told = (Vec::new(), "code 16 at record 2\n".to_string());
    assert_eq!(write_replay(&all[1]), told);
    assert_eq!(write_replay(&all[4]).0.len(), 92);
    assert_eq!(write_short(&all[4]).0.len(), 82);
}

#[test]
fn from_rust() {
    succeeds(
        Command::new(env!("CARGO"))
            .args(["build", "--offline", "--quiet", "--examples"])
            .arg("--target-dir")
            .arg(room().join("rust"))
            .current_dir(at("bindings/rust")),
    );
    let built = room().join("rust/debug/examples");
    for name in ["keeps_si", "keeps_si_in_pieces"] {
        check(&built.join(name), keeps_si);
    }
    check_order(&built.join("print_order"));
}

#[test]
fn from_c() {
    let words = "gcc -std=c99";
    let program = compiled("keeps_si", words, "bindings/c/keeps_si.c");
    check(&program, keeps_si);
    let program = compiled("write_replay", words, "bindings/c/write_replay.c");
    check(&program, write_replay);
    let program = compiled("write_short", words, "bindings/c/write_short.c");
    check(&program, write_short);
    let program = compiled("report_pieces", words, "bindings/c/report_pieces.c");
    check(&program, print_report);
    check_order(&compiled("print_order", words, "bindings/c/print_order.c"));
}

/// The examples in C are examples in C++ too.
#[test]
fn from_cpp() {
    let words = "g++ -std=c++11 -x c++";
    let program = compiled("keeps_si_cpp", words, "bindings/c/keeps_si.c");
    check(&program, keeps_si);
    let program = compiled("write_replay_cpp", words, "bindings/c/write_replay.c");
    check(&program, write_replay);
    let program = compiled("write_short_cpp", words, "bindings/c/write_short.c");
    check(&program, write_short);
    let program = compiled("report_pieces_cpp", words, "bindings/c/report_pieces.c");
    check(&program, print_report);
    let program = compiled("print_order_cpp", words, "bindings/c/print_order.c");
    check_order(&program);
    let program = compiled("print_report", words, "bindings/c/print_report.cc");
    check(&program, print_report);
}

/// What the archive takes from outside, as the README says: a program without a
/// C library has to bring these two, and no more.
#[test]
fn nothing_but_memcpy_and_memset() {
    let archive = at("target/staticlib/libconsistency.a");
    let output = Command::new("nm").arg("-u").arg(&archive).output();
    let output = output.expect("nm lists the archive");
    assert!(output.status.success(), "nm -u {}", archive.display());
    let listed = String::from_utf8(output.stdout).expect("names");
    let names = listed
        .lines()
        .filter_map(|line| line.trim().strip_prefix("U "));
    let names: BTreeSet<&str> = names.collect();
    assert_eq!(names, BTreeSet::from(["memcpy", "memset"]));
    let readme = text("README.md");
    assert!(readme.contains("A call needs nothing but `memcpy` and `memset`,"));
}

/// It needs nothing before it.
#[test]
fn the_header_alone() {
    for words in ["gcc -std=c99 -x c", "g++ -std=c++11 -x c++"] {
        let header = at("bindings/c/consistency.h");
        succeeds(compiler(words).arg("-fsyntax-only").arg(header));
    }
}

fn text(path: &str) -> String {
    fs::read_to_string(at(path)).unwrap_or_else(|error| panic!("{path}: {error}"))
}

#[test]
fn the_readme_has_the_examples() {
    let readme = text("README.md");
    for path in [
        "bindings/rust/examples/keeps_si.rs",
        "bindings/c/keeps_si.c",
    ] {
        let indented: String = text(path)
            .lines()
            .map(|line| format!("    {line}\n"))
            .collect();
        assert!(readme.contains(&indented.replace("    \n", "\n")), "{path}");
    }
}

#[test]
fn the_numbers_of_the_header() {
    let header = text("bindings/c/consistency.h");
    let has = |line: String| assert!(header.contains(&line), "{line}");
    for (call, longest) in [
        (Call::Judge, consistency::LONGEST_IMAGE),
        (Call::Replay, consistency::LONGEST_REPLAY),
        (Call::Short, consistency::LONGEST_FILE),
        (Call::Long, consistency::LONGEST_FILE),
        (Call::Plain, 0),
    ] {
        assert_eq!(call.longest(), longest, "{call:?}");
    }
    assert_eq!(consistency::LONGEST_FILE, Store::MAX_BYTES);
    assert_eq!(consistency::LONGEST_REPORT, model::text::LONGEST);
    assert_eq!(consistency::JUDGE_WORDS, model::words::JUDGE);
    assert_eq!(consistency::NO_ROOM, model::words::NO_ROOM);
    assert_eq!(consistency::MOST_COMMITS, model::bare::ROOM);
    let defines = |name: &str, number: usize| {
        has(format!("#define CONSISTENCY_{name} {number}\n"));
    };
    defines("LONGEST_FILE", consistency::LONGEST_FILE);
    defines("LONGEST_IMAGE", consistency::LONGEST_IMAGE);
    defines("LONGEST_REPLAY", consistency::LONGEST_REPLAY);
    defines("LONGEST_REPORT", consistency::LONGEST_REPORT);
    defines("NO_ROOM", consistency::NO_ROOM as usize);
    defines("REFUSAL_WORDS", consistency::REFUSAL_WORDS);
    defines("JUDGE_WORDS", consistency::JUDGE_WORDS);
    defines("JUDGE_STACK", consistency::JUDGE_STACK);
    defines("PLAIN_STACK", consistency::PLAIN_STACK);
    defines("REPLAY_WORDS", consistency::REPLAY_WORDS);
    defines("REPLAY_STACK", consistency::REPLAY_STACK);
    defines("CONVERSION_WORDS", consistency::CONVERSION_WORDS);
    defines("CONVERSION_STACK", consistency::CONVERSION_STACK);
    defines("REPORT_STACK", consistency::REPORT_STACK);
    defines("MOST_COMMITS", consistency::MOST_COMMITS);
    defines("IMAGE_WORDS", consistency::IMAGE_WORDS);
    defines("IMAGE_STACK", consistency::IMAGE_STACK);
    defines("VISIBILITY_STACK", consistency::VISIBILITY_STACK);
    defines("PUSH_STACK", consistency::PUSH_STACK);
    defines("CLOSE_STACK", consistency::CLOSE_STACK);
    let places: Vec<String> = (0..LEVELS.len())
        .map(|place| format!("    CONSISTENCY_{} = {}", LEVELS[place].name, 4 + 4 * place))
        .collect();
    has(format!("enum {{\n{}\n}};\n", places.join(",\n")));
}

/// The rows of the table with this head, in Markdown or in a comment: cells
/// between bars.
fn table(path: &str, head: &[&str]) -> Vec<Vec<String>> {
    let cells = |line: &str| -> Vec<String> {
        let line = line.trim_start_matches([' ', '*', '/']);
        let line = line.trim_end_matches("*/").trim_end();
        let line = match line.strip_prefix('|') {
            Some(inner) => inner.strip_suffix('|').unwrap_or(inner),
            None => line,
        };
        line.split('|')
            .map(|cell| cell.trim().to_string())
            .collect()
    };
    let text = text(path);
    let mut rows = text.lines().map(cells).skip_while(|row| row != head);
    assert!(rows.next().is_some(), "{path} has no table {head:?}");
    rows.skip(1)
        .take_while(|row| row.len() == head.len())
        .collect()
}

/// A table that the header and the crate for Rust both have.
fn shared(path: &str, head: &[&str]) -> Vec<Vec<String>> {
    let rows = table("bindings/c/consistency.h", head);
    assert_eq!(rows, table(path, head), "{path}");
    rows
}

#[test]
fn the_table_of_codes() {
    let codes = shared(
        "bindings/rust/src/refusal.rs",
        &["code", "refused since", "names"],
    );
    let long = table("docs/FORMAT.md", &["code", "when", "names", "what to do"]);
    let answered = "judged, or the file is written, or the piece is taken, or an order is shown";
    assert_eq!(long[0][..2], ["0", answered]);
    assert_eq!(codes.len(), long.len() - 1);
    for (code, long) in codes.iter().zip(&long[1..]) {
        assert_eq!([&code[0], &code[2]], [&long[0], &long[2]]);
    }
}

/// Each call with its codes, in the order of its tests.
#[test]
fn the_table_of_calls() {
    let head = ["call", "codes"];
    let of_files = |call: Call| -> String {
        let own = call.own_codes().iter();
        let own: String = own.map(|code| format!(", then {code}")).collect();
        format!("1 to 14{own}")
    };
    let codes = [
        of_files(Call::Judge),
        of_files(Call::Plain),
        of_files(Call::Replay),
        of_files(Call::Short),
        of_files(Call::Long),
        format!("{}, then {TOO_FEW_ROWS}", of_files(Call::Judge)),
        "20, then 17, then 19".to_string(),
        CLOSED.to_string(),
        format!("{CLOSED}, then 17, then {}", of_files(Call::Port)),
    ];
    let due = |names: [String; 9]| -> Vec<Vec<String>> {
        let rows = names.into_iter().zip(codes.clone());
        rows.map(|(name, codes)| vec![name, codes]).collect()
    };
    let functions = [
        "judge_file",
        "plain_file",
        "replay_file",
        "short_file",
        "long_file",
        "visibility_file",
        "judge_image",
        "push_piece",
        "close_session",
    ];
    let header = due(functions.map(str::to_string));
    assert_eq!(table("bindings/c/consistency.h", &head), header);
    let format = due(functions.map(|name| format!("`{name}`")));
    assert_eq!(table("docs/FORMAT.md", &head), format);
    let of_the_crate = functions.map(|name| {
        let name = name.trim_end_matches("_file");
        format!("[`{name}`](crate::{name})")
    });
    assert_eq!(
        table("bindings/rust/src/refusal.rs", &head),
        due(of_the_crate)
    );
}

#[test]
fn the_table_of_levels() {
    let levels = shared(
        "bindings/rust/src/judging.rs",
        &["level", "name", "clauses"],
    );
    let long = table("docs/FORMAT.md", &["level", "clauses"]);
    assert_eq!([levels.len(), long.len()], [LEVELS.len(); 2]);
    for ((level, long), due) in levels.iter().zip(&long).zip(&LEVELS) {
        assert_eq!(long[0], format!("{}, {}", level[0], level[1]));
        assert_eq!(long[1], level[2]);
        let clauses: Vec<String> = due.clauses.iter().map(u8::to_string).collect();
        assert_eq!([due.name, &clauses.join(" ")], [&level[0], &level[2]]);
    }
}

#[test]
fn the_table_of_clauses() {
    let clauses = shared("bindings/rust/src/judging.rs", &["clause", "wants"]);
    let head = ["clause", "wants", "an example that fails it"];
    let long = table("docs/FORMAT.md", &head);
    assert_eq!(clauses.len(), long.len());
    for (clause, long) in clauses.iter().zip(&long) {
        assert!(long[0].starts_with(&format!("{}, ", clause[0])), "{long:?}");
    }
}

/// Files of all sorts, among them the largest and the fullest.
fn all_sorts() -> Vec<Vec<u8>> {
    let examples = files().into_iter().map(|(_, trace)| trace.bytes);
    let large = (0..4).flat_map(|seed| {
        let mut random = Random::seeded(seed);
        let large = [largest, largest_serial, exactly_full];
        large.map(|built| encode(&built(&mut random).trace))
    });
    let growing = (0..12).map(|seed| growing_case(&mut Random::seeded(seed)).bytes);
    let generated = (0..1_000).map(file);
    examples
        .chain(large)
        .chain(growing)
        .chain(generated)
        .collect()
}

/// Images of all sorts, none longer than a file may be.
fn images() -> Vec<Vec<u8>> {
    let images = (0..1_000).map(|seed| image_case(seed).bytes);
    images
        .filter(|image| image.len() <= consistency::LONGEST_FILE)
        .collect()
}

/// What each call takes, measured. The program looks up `memcpy` and `memset`
/// where they are first called, which takes stack too.
#[test]
fn the_stack_of_each_call() {
    let words = "gcc -std=c11 -pthread -Wl,-z,lazy";
    let program = compiled("stack", words, "tests/tests/callers/stack.c");
    let listed = |files: Vec<Vec<u8>>| {
        let mut input = Vec::new();
        for file in files {
            input.extend((file.len() as u64).to_le_bytes());
            input.extend(file);
        }
        input
    };
    let [traces, images] = [listed(all_sorts()), listed(images())];
    for (call, promised) in [
        ("judge_file", consistency::JUDGE_STACK),
        ("plain_file", consistency::PLAIN_STACK),
        ("replay_file", consistency::REPLAY_STACK),
        ("short_file", consistency::CONVERSION_STACK),
        ("long_file", consistency::CONVERSION_STACK),
        ("report_file", consistency::REPORT_STACK),
        ("judge_image", consistency::IMAGE_STACK),
        ("visibility_file", consistency::VISIBILITY_STACK),
        ("open_session", consistency::PUSH_STACK),
        ("push_piece", consistency::PUSH_STACK),
        ("close_session", consistency::CLOSE_STACK),
        ("report_session", consistency::CLOSE_STACK),
    ] {
        let input = match call {
            "judge_image" => &images,
            _ => &traces,
        };
        let said = printed(Command::new(&program).arg(call), input);
        let taken: usize = said.trim().parse().expect("a number");
        println!("{call}: {taken} bytes of stack, {promised} promised");
        assert!(0 < taken && taken <= promised, "{call}");
    }
}

/// What a thread of the standard library needs of its stack for itself.
const THREAD: usize = 16_384;

/// The calls for Rust, each on a thread with as much stack as is promised.
#[test]
fn the_stack_of_each_call_in_rust() {
    let files = all_sorts();
    let mut buffer = vec![0; consistency::LONGEST_IMAGE.max(consistency::LONGEST_FILE)];
    let mut text = vec![0; consistency::LONGEST_REPORT];
    let mut on_a_thread = |stack: usize, call: fn(&[u8], &mut [u8], &mut [u8])| {
        let calls = || {
            files
                .iter()
                .for_each(|file| call(file, &mut buffer, &mut text))
        };
        thread::scope(|scope| {
            let thread = thread::Builder::new().stack_size(stack + THREAD);
            thread.spawn_scoped(scope, calls).expect("a thread");
        });
    };
    on_a_thread(consistency::JUDGE_STACK, |file, image, _| {
        consistency::judge(file, image);
    });
    on_a_thread(consistency::PLAIN_STACK, |file, _, _| {
        consistency::plain(file);
    });
    on_a_thread(consistency::REPLAY_STACK, |file, buffer, _| {
        consistency::replay(file, buffer);
    });
    on_a_thread(consistency::CONVERSION_STACK, |file, buffer, _| {
        consistency::short(file, buffer);
        consistency::long(file, buffer);
    });
    on_a_thread(consistency::REPORT_STACK, |file, image, text| {
        consistency::report(file, image, text);
    });
    on_a_thread(consistency::VISIBILITY_STACK, |file, image, _| {
        consistency::visibility(file, image, &mut [0; consistency::MOST_COMMITS]);
    });
    let images = images();
    thread::scope(|scope| {
        let thread = thread::Builder::new().stack_size(consistency::IMAGE_STACK + THREAD);
        let calls = || {
            images.iter().for_each(|image| {
                consistency::judge_image(image, &mut [0; consistency::MOST_COMMITS]);
            })
        };
        thread.spawn_scoped(scope, calls).expect("a thread");
    });
    on_a_thread(consistency::PUSH_STACK, |file, _, _| {
        let mut session = consistency::Session::open();
        session.push(file).expect("it is open");
    });
    on_a_thread(consistency::CLOSE_STACK, |file, image, text| {
        let mut session = consistency::Session::open();
        session.push(file).expect("it is open");
        session.close(image);
        session.reopen();
        session.push(file).expect("it is open again");
        session.report(image, text);
    });
}
