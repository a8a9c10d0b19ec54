//! The files that the repository keeps are those of the model. Where one is
//! not, `cargo run --offline --example write_traces` writes them again.

use model::bare::{bare, line};
use model::example_traces::{trace_b, trace_c, trace_e, trace_m};
use model::files::{arguments, at, files, printed, replay_of, report_of, written_of};
use model::store::Store;
use model::trace::encode;
use model::visibility::{rows, text};
use model::{outcome, Call};
use std::collections::BTreeSet;
use std::fs;

fn kept(path: &str) -> Vec<u8> {
    fs::read(at(path)).unwrap_or_else(|error| panic!("{path}: {error}"))
}

fn names_in(folder: &str) -> BTreeSet<String> {
    let entries = fs::read_dir(at(folder)).expect("a folder");
    entries
        .map(|entry| entry.expect("an entry").file_name())
        .map(|name| name.into_string().expect("a name"))
        .collect()
}

#[test]
fn traces() {
    for (name, example) in files() {
        for folder in ["examples", "crates/vectors/data"] {
            assert_eq!(
                kept(&format!("{folder}/{name}")),
                example.bytes,
                "{folder}/{name}"
            );
        }
    }
}

#[test]
fn no_other_files() {
    let mut names: BTreeSet<String> = files().iter().map(|(name, _)| name.to_string()).collect();
    assert_eq!(names_in("crates/vectors/data"), names);
    names.insert("README.md".to_string());
    assert_eq!(names_in("examples"), names);
}

#[test]
fn every_trace_has_a_line_in_the_readme() {
    let readme = String::from_utf8(kept("examples/README.md")).expect("text");
    for (name, _) in files() {
        assert!(readme.contains(&format!("`{name}`")), "{name}");
    }
}

#[test]
fn what_the_programs_read_and_print() {
    let b = encode(&trace_b());
    for program in ["judge", "port"] {
        let [stdin, stdout] =
            ["stdin", "stdout"].map(|name| kept(&format!("crates/{program}/{name}")));
        assert_eq!(stdin, b);
        assert_eq!(stdout, report_of(&b).as_bytes());
    }
    assert_eq!(kept("crates/image/stdin"), b);
    assert_eq!(kept("crates/image/stdout"), written_of(Call::Judge, &b));
    let e = encode(&trace_e());
    let image = written_of(Call::Judge, &e);
    assert_eq!(kept("crates/order/stdin"), image);
    assert_eq!(kept("crates/order/stdout"), line(&bare(&image)).as_bytes());
    assert_eq!(kept("crates/replay/stdin"), e);
    assert_eq!(kept("crates/replay/stdout"), replay_of(&e));
    let c = encode(&trace_c());
    let short = written_of(Call::Short, &c);
    assert_eq!(kept("crates/short/stdin"), c);
    assert_eq!(kept("crates/short/stdout"), short);
    assert_eq!(kept("crates/long/stdin"), short);
    assert_eq!(kept("crates/long/stdout"), c);
    let m = encode(&trace_m());
    let rows = rows(&outcome(&m).expect("taken").store);
    assert_eq!(kept("crates/visibility/stdin"), m);
    assert_eq!(kept("crates/visibility/stdout"), text(&rows).as_bytes());
    assert_eq!(kept("crates/vectors/args"), arguments().as_bytes());
    assert_eq!(kept("crates/vectors/stdout"), printed().as_bytes());
}

fn formats() -> String {
    String::from_utf8(kept("docs/FORMAT.md")).expect("text")
}

/// The bytes at the start of the lines below a head of docs/FORMAT.md.
fn bytes_below(head: &str) -> Vec<u8> {
    let format = formats();
    let (_, example) = format.split_once(head).expect("a head");
    let byte = |word: &str| match word.len() {
        2 => u8::from_str_radix(word, 16).ok(),
        _ => None,
    };
    example
        .lines()
        .skip_while(|line| !line.starts_with("    "))
        .take_while(|line| line.starts_with("    "))
        .flat_map(|line| line.split_whitespace().map_while(byte))
        .collect()
}

#[test]
fn the_examples_of_the_formats() {
    let b = encode(&trace_b());
    assert_eq!(bytes_below("\n### Example: a lost update\n"), b);
    let image = written_of(Call::Judge, &b);
    assert_eq!(
        bytes_below("\n### Example: the image of a lost update\n"),
        image
    );
    let e = outcome(&encode(&trace_e()));
    let replay = Call::Replay.written(&e).expect("SER accepts");
    assert_eq!(bytes_below("\n### Example: a view that was lost\n"), replay);
    let short = Call::Short.written(&e).expect("it fits");
    let head = "\n### Example: the same view lost, written short\n";
    assert_eq!(bytes_below(head), short);
}

/// A number as it stands in a text: 65,536.
fn in_thousands(number: usize) -> String {
    match (number / 1000, number % 1000) {
        (0, rest) => rest.to_string(),
        (thousands, rest) => format!("{thousands},{rest:03}"),
    }
}

#[test]
fn the_limits_of_the_formats() {
    let (keys, clients) = (Store::MAX_KEYS, Store::MAX_CLIENTS);
    let (commits, versions) = (Store::MAX_COMMITS, Store::MAX_COMMITS + 1);
    let operations = Store::MAX_OPERATIONS;
    let [least, most] = [Store::MIN_BYTES, Store::MAX_BYTES].map(in_thousands);
    let too_many = in_thousands(Store::MAX_BYTES + 1);
    let longest = |call: Call| in_thousands(call.longest());
    let [image, replay] = [Call::Judge, Call::Replay].map(longest);
    let longest = format!("{commits} commits of {operations} operations over {keys} keys");
    let formats = formats();
    for due in [
        format!("| keys | 1 to {keys} |\n"),
        format!("| clients | 1 to {clients} |\n"),
        format!("| commits | 0 to {commits}, so a key has at most {versions} versions |\n"),
        format!("| file | {least} to {most} bytes |\n"),
        format!("shorter than {least} bytes, longer than {most},"),
        format!("a judged trace, at most {image} bytes."),
        format!("the longest image has {image} bytes"),
        format!("the longest replay has {replay} bytes, a trace in one edition at most {most}"),
        format!("the trace in that edition has more than {most} bytes"),
        format!("The longest has {replay}: {longest}."),
        format!("| how many bytes came; {too_many} stands for every number above {most} |\n"),
        format!("Where more than {most} bytes came in pieces,"),
    ] {
        assert_eq!(formats.matches(&due).count(), 1, "{due}");
    }
}
