//! The benchmark: times the ordinary judge, and the proved one beside it if it
//! is linked in (feature `proved`), round by round on the same traces, over 16
//! keys and over 32; what of that goes to the arrays; then files that come in
//! pieces, and the replay, beside the judge; then kinds of traces that no judge was
//! tuned for; then both editions of the traces, and their images judged by
//! themselves. With `--short` it leaves out how the times grow, with `--odd` all but
//! the kinds that no judge was tuned for, with `--editions` all but the editions,
//! with `--images` all but the images, and with `--plain` it times the plain second
//! engine beside the judge, on few traces, and nothing else.

use std::hint::black_box;
use std::time::Instant;

use bench::contender::{
    check, check_images, contenders, Contender, Timed, IMAGE, JUDGE, LARGE_PIECES, LONG, PLAIN,
    REPLAY, SHORT, SMALL_PIECES, TAKING,
};
use bench::form::COMMITS;
use bench::odd::{self, KINDS};
use bench::traces::{
    asking, describe, images, in_edition, mean_sizes, timed, touching, Style, Trace, NUMBER,
};
use model::bare::ROOM;
use model::Edition;

/// Numbers of keys of the traces with a table of their own.
const KEYS: [usize; 2] = [16, 32];
const ROUNDS: usize = 21;

/// The plain engine is slow.
const PLAIN_TRACES: usize = 12;

/// The times of one contender in microseconds: a row for each round, in it a
/// time for each trace.
struct Times(Vec<Vec<f64>>);

/// Ways to make one number per trace out of many rounds.
#[derive(Clone, Copy)]
enum Way {
    /// The quickest round.
    Least,
    /// The middle one of the rounds.
    Median,
    /// Each trace in the round that was quickest for it: what is left when the
    /// machine is never quiet for a whole round.
    EachLeast,
}

impl Way {
    const ALL: [Way; 3] = [Way::Least, Way::Median, Way::EachLeast];

    fn name(self) -> &'static str {
        match self {
            Way::Least => "least",
            Way::Median => "median",
            Way::EachLeast => "each least",
        }
    }
}

impl Times {
    /// The mean time of the traces with these places.
    fn of(&self, way: Way, places: &[usize]) -> f64 {
        let sum = |round: &Vec<f64>| places.iter().map(|&place| round[place]).sum::<f64>();
        let total = match way {
            Way::EachLeast => places
                .iter()
                .map(|&place| {
                    self.0
                        .iter()
                        .map(|round| round[place])
                        .fold(f64::INFINITY, f64::min)
                })
                .sum(),
            Way::Least => self.0.iter().map(sum).fold(f64::INFINITY, f64::min),
            Way::Median => {
                let mut sums: Vec<f64> = self.0.iter().map(sum).collect();
                sums.sort_by(f64::total_cmp);
                sums[sums.len() / 2]
            }
        };
        total / places.len().max(1) as f64
    }
}

/// A call and the traces to make it on.
type Task<'a> = (&'a Timed, &'a [Trace]);

/// Times the contenders on the traces, one after the other in each round; who
/// is first changes from round to round.
fn time(contenders: &mut [Box<dyn Contender>], timed: &Timed, traces: &[Trace]) -> Vec<Times> {
    let [times] = time_each(contenders, [(timed, traces)]);
    times
}

/// The same for several tasks, all of them in each round.
fn time_each<const N: usize>(
    contenders: &mut [Box<dyn Contender>],
    tasks: [Task; N],
) -> [Vec<Times>; N] {
    let mut buffers = tasks.map(|(timed, _)| vec![0; timed.room]);
    let mut times: [Vec<Times>; N] =
        tasks.map(|_| contenders.iter().map(|_| Times(Vec::new())).collect());
    let turns = N * contenders.len();
    for round in 0..ROUNDS {
        for turn in 0..turns {
            let turn = (round + turn) % turns;
            let (which, task) = (turn % contenders.len(), turn / contenders.len());
            let (contender, buffer) = (&mut contenders[which], &mut buffers[task]);
            let (timed, traces) = tasks[task];
            let mut spent = Vec::with_capacity(traces.len());
            let mut start = Instant::now();
            for trace in traces {
                contender.call(timed, black_box(&trace.bytes), buffer);
                let end = Instant::now();
                spent.push((end - start).as_secs_f64() * 1e6);
                start = end;
            }
            times[task][which].0.push(spent);
        }
    }
    times
}

/// What reading the clock adds to each time, in microseconds.
fn clock_cost() -> f64 {
    let start = Instant::now();
    for _ in 0..100_000 {
        black_box(Instant::now());
    }
    start.elapsed().as_secs_f64() * 10.0
}

/// The places of all traces and of those of each style.
fn groups(traces: &[Trace]) -> Vec<Vec<usize>> {
    let all = 0..traces.len();
    let mut groups = vec![all.clone().collect()];
    for style in Style::ALL {
        groups.push(
            all.clone()
                .filter(|&place| traces[place].style == style)
                .collect(),
        );
    }
    groups
}

/// The judge on traces over 16 keys and over 32, in the same rounds; and on
/// files that have a header alone.
fn print_judge(contenders: &mut [Box<dyn Contender>], sizes: [&[Trace]; 2]) {
    let headers = timed(0, 1);
    let [first, second] = sizes;
    let tasks = [first, second, &headers].map(|traces| (&JUDGE, traces));
    for (timed, traces) in tasks {
        check(contenders, timed, traces);
    }
    let [first_times, second_times, headers_times] = time_each(contenders, tasks);
    print_full(contenders, KEYS[0], first, &first_times);
    print_full(contenders, KEYS[1], second, &second_times);
    print_rate(contenders, second, &second_times);
    print_arrays(contenders, &headers_times, [&first_times, &second_times]);
}

/// The whole table for one set of traces.
fn print_full(contenders: &[Box<dyn Contender>], keys: usize, traces: &[Trace], times: &[Times]) {
    println!("\n{COMMITS} commits, {keys} keys: {}", describe(traces));
    let groups = groups(traces);
    print!("{:<12} {:>10} {:>9}", "judge", "", "all");
    for style in Style::ALL {
        print!(" {:>9}", style.name());
    }
    println!();
    for (contender, times) in contenders.iter().zip(times) {
        for way in Way::ALL {
            print!("{:<12} {:>10}", contender.name(), way.name());
            for group in &groups {
                print!(" {:>9.2}", times.of(way, group));
            }
            println!();
        }
    }
    for other in &times[1..] {
        for way in Way::ALL {
            print!("{:<12} {:>10}", "ratio to 1st", way.name());
            for group in &groups {
                print!(" {:>9.2}", other.of(way, group) / times[0].of(way, group));
            }
            println!();
        }
    }
}

/// How many of the traces one core judges in a second, and how many bytes.
fn print_rate(contenders: &[Box<dyn Contender>], traces: &[Trace], times: &[Times]) {
    let all: Vec<usize> = (0..traces.len()).collect();
    let [bytes, ..] = mean_sizes(traces);
    for (contender, times) in contenders.iter().zip(times) {
        let rate = |way: Way| {
            let time = times.of(way, &all);
            let (files, megabytes) = (1e6 / time, bytes / time);
            format!("{}: {files:.0} files, {megabytes:.0} MB", way.name())
        };
        let rates = Way::ALL.map(rate).join("; ");
        println!("a second on one core, {}: {rates}", contender.name());
    }
}

/// What the arrays of a judge cost: the time for a file that ends at once.
fn print_arrays(contenders: &[Box<dyn Contender>], headers: &[Times], sizes: [&[Times]; 2]) {
    println!(
        "\nthe arrays: a file of a header alone, one key, which costs little else than making"
    );
    println!("and clearing them; and its share of the time for a trace above, in a hundred");
    print!("{:<12} {:>10}", "", "");
    let [first, second] = KEYS.map(|keys| format!("{keys} keys"));
    println!(" {:>9} {first:>9} {second:>9}", "time");
    let all: Vec<usize> = (0..NUMBER).collect();
    for (place, contender) in contenders.iter().enumerate() {
        for way in Way::ALL {
            let time = headers[place].of(way, &all);
            print!("{:<12} {:>10} {time:>9.3}", contender.name(), way.name());
            for times in sizes {
                print!(" {:>9.1}", 100.0 * time / times[place].of(way, &all));
            }
            println!();
        }
    }
}

/// Files that come in pieces beside the judge of the whole file; what they need
/// beyond it is the pushing of the pieces.
fn print_pieces(contenders: &mut [Box<dyn Contender>], sizes: [&[Trace]; 2]) {
    for (keys, traces) in KEYS.into_iter().zip(sizes) {
        println!("\nin pieces, {keys} keys: {}", describe(traces));
        println!("pushing: the time less that of the judge; of 4,096 bytes each, and of 64");
        let rows = [&JUDGE, &LARGE_PIECES, &SMALL_PIECES];
        for timed in rows {
            check(contenders, timed, traces);
        }
        let times = time_each(contenders, rows.map(|timed| (timed, traces)));
        let all: Vec<usize> = (0..traces.len()).collect();
        print_head(contenders);
        for way in Way::ALL {
            let means = times.each_ref().map(|times| means(times, way, &all));
            for (timed, times) in rows.iter().zip(&means) {
                print_row(timed.name, way, times);
            }
            for pushed in &means[1..] {
                print_row("pushing", way, &less(pushed, &means[0]));
            }
        }
    }
}

/// The mean time of each contender for the traces with these places.
fn means(times: &[Times], way: Way, places: &[usize]) -> Vec<f64> {
    times.iter().map(|times| times.of(way, places)).collect()
}

/// What one needs beyond the other, for each contender.
fn less(one: &[f64], other: &[f64]) -> Vec<f64> {
    one.iter()
        .zip(other)
        .map(|(one, other)| one - other)
        .collect()
}

/// The head of a table with a column for each contender.
fn print_head(contenders: &[Box<dyn Contender>]) {
    print!("{:<12} {:>10}", "", "");
    for contender in contenders.iter() {
        print!(" {:>9}", contender.name());
    }
    println!("{}", "     ratio".repeat(contenders.len() - 1));
}

/// The replay beside the judge, on those of the traces that have one. Taking is
/// the judge without an image buffer, which takes the trace and writes nothing,
/// so that what the replay needs beyond it is the writing of the file.
fn print_replay(contenders: &mut [Box<dyn Contender>], mut traces: Vec<Trace>) {
    traces.retain(|trace| trace.style == Style::Serial);
    println!("\nthe replay: {}", describe(&traces));
    let rows = [&JUDGE, &TAKING, &REPLAY];
    for timed in rows {
        check(contenders, timed, &traces);
    }
    println!(
        "its file: mean {} bytes",
        mean_replay(&mut contenders[0], &traces)
    );
    println!("taking: the judge with no image buffer; writing: replay less taking");
    let times = time_each(contenders, rows.map(|timed| (timed, &traces[..])));
    let all: Vec<usize> = (0..traces.len()).collect();
    print_head(contenders);
    for way in Way::ALL {
        let [judge, taking, replay] = times.each_ref().map(|times| means(times, way, &all));
        let writing = less(&replay, &taking);
        for (name, times) in [
            (JUDGE.name, judge),
            (TAKING.name, taking),
            (REPLAY.name, replay),
            ("writing", writing),
        ] {
            print_row(name, way, &times);
        }
    }
}

/// The judge on traces that ask much of the paths of links.
fn print_asking(contenders: &mut [Box<dyn Contender>]) {
    let sizes = KEYS.map(|keys| asking(NUMBER / 2, COMMITS, keys));
    for traces in &sizes {
        check(contenders, &JUDGE, traces);
    }
    let times = time_each(
        contenders,
        sizes.each_ref().map(|traces| (&JUDGE, &traces[..])),
    );
    for ((keys, traces), times) in KEYS.into_iter().zip(&sizes).zip(&times) {
        println!(
            "\npaths of links, CP and SI accepted, {keys} keys: {}",
            describe(traces)
        );
        print_head(contenders);
        for style in Style::ASKING {
            let places: Vec<usize> = (0..traces.len())
                .filter(|&place| traces[place].style == style)
                .collect();
            for way in Way::ALL {
                print_row(style.name(), way, &means(times, way, &places));
            }
        }
    }
}

/// The judge on kinds of traces that it was not tuned for, all in the same rounds;
/// and the worst ratio, with its kind.
fn print_odd(contenders: &mut [Box<dyn Contender>]) {
    let number = odd::NUMBER;
    println!("\nkinds of traces that no judge was tuned for, {number} of each, {COMMITS} commits");
    let kinds = KINDS.each_ref().map(|kind| {
        let code = kind.code();
        (Timed { code, ..JUDGE }, kind.traces(number))
    });
    let tasks = kinds.each_ref().map(|(timed, traces)| (timed, &traces[..]));
    for (timed, traces) in tasks {
        check(contenders, timed, traces);
    }
    let times = time_each(contenders, tasks);
    let all: Vec<usize> = (0..number).collect();
    print!(
        "{:<28} {:>4} {:>6} {:>7} {:>10}",
        "", "code", "bytes", "records", "operations"
    );
    for (place, contender) in contenders.iter().enumerate() {
        print!(" | {:<8}", contender.name());
        for way in Way::ALL {
            print!(" {:>10}", way.name());
        }
        if place > 0 {
            print!(" {:>20}", "ratios");
        }
    }
    println!();
    for ((kind, (timed, traces)), times) in KINDS.iter().zip(tasks).zip(&times) {
        let [bytes, records, operations] = mean_sizes(traces);
        print!("{:<28} {:>4}", kind.name, timed.code);
        print!(" {bytes:>6.0} {records:>7.0} {operations:>10.0}");
        for (place, other) in times.iter().enumerate() {
            print!(" | {:<8}", "");
            for way in Way::ALL {
                print!(" {:>10.2}", other.of(way, &all));
            }
            if place > 0 {
                for way in Way::ALL {
                    print!(" {:>6.2}", other.of(way, &all) / times[0].of(way, &all));
                }
            }
        }
        println!();
    }
    for (place, contender) in contenders.iter().enumerate().skip(1) {
        let worst = |way: Way| {
            let ratio = |times: &Vec<Times>| times[place].of(way, &all) / times[0].of(way, &all);
            let ratios = KINDS.iter().zip(times.iter().map(ratio));
            let worst = ratios.max_by(|one, other| one.1.total_cmp(&other.1));
            let (kind, ratio) = worst.expect("there are kinds");
            format!("{} {ratio:.2} ({})", way.name(), kind.name)
        };
        let worst = Way::ALL.map(worst).join("; ");
        println!("the worst ratio, {}: {worst}", contender.name());
    }
}

/// The judge on the same traces in both editions, in the same rounds, with how
/// long the files are; and the calls that write one edition of the other.
fn print_editions(contenders: &mut [Box<dyn Contender>], keys: usize) {
    let mut traces = timed(COMMITS, keys);
    traces.extend(asking(NUMBER / 2, COMMITS, keys));
    let long = in_edition(&traces, Edition::Long);
    let short = in_edition(&traces, Edition::Short);
    println!("\nboth editions, {keys} keys: {}", describe(&traces));
    let tasks = [
        (&JUDGE, &long[..]),
        (&JUDGE, &short[..]),
        (&SHORT, &long[..]),
        (&LONG, &short[..]),
    ];
    for (timed, traces) in tasks {
        check(contenders, timed, traces);
    }
    let times = time_each(contenders, tasks);
    print!("{:<12} {:>7} {:>7} {:>7}", "", "long", "short", "of 100");
    for contender in contenders.iter() {
        print!(
            " | {:<10} {:>10} {:>7} {:>7}",
            contender.name(),
            "",
            "long",
            "short"
        );
        print!(" {:>7} {:>8} {:>8}", "ratio", "to short", "to long");
    }
    println!();
    for style in Style::ALL.into_iter().chain(Style::ASKING) {
        let places: Vec<usize> = (0..traces.len())
            .filter(|&place| traces[place].style == style)
            .collect();
        let mean = |traces: &[Trace]| {
            let bytes: usize = places.iter().map(|&place| traces[place].bytes.len()).sum();
            bytes as f64 / places.len() as f64
        };
        let [long, short] = [mean(&long), mean(&short)];
        for way in Way::ALL {
            print!(
                "{:<12} {long:>7.0} {short:>7.0} {:>7.1}",
                style.name(),
                100.0 * short / long
            );
            for which in 0..contenders.len() {
                let [long, short, to_short, to_long] =
                    times.each_ref().map(|times| times[which].of(way, &places));
                print!(" | {:<10} {:>10} {long:>7.2} {short:>7.2}", "", way.name());
                print!(" {:>7.2} {to_short:>8.2} {to_long:>8.2}", short / long);
            }
            println!();
        }
    }
}

/// Of 100 keys so many are read, and so many written, by a commit of the traces
/// that both editions are compared on by how many keys a commit touches.
const TOUCHING: [usize; 6] = [2, 5, 15, 30, 45, 100];

/// The judge on both editions of serial, snapshot and wild traces, by how many keys
/// a commit touches.
fn print_touching(contenders: &mut [Box<dyn Contender>], keys: usize) {
    println!("\nboth editions, {keys} keys, by how many of 100 a commit reads and writes");
    print!("{:<8}", "of 100");
    for contender in contenders.iter() {
        print!(
            " | {:<8} {:>7} {:>7} {:>7}",
            contender.name(),
            "long",
            "short",
            "ratio"
        );
    }
    println!();
    for share in TOUCHING {
        let traces = touching(share, NUMBER / 4, keys);
        let long = in_edition(&traces, Edition::Long);
        let short = in_edition(&traces, Edition::Short);
        let tasks = [(&JUDGE, &long[..]), (&JUDGE, &short[..])];
        for (timed, traces) in tasks {
            check(contenders, timed, traces);
        }
        let times = time_each(contenders, tasks);
        let all: Vec<usize> = (0..traces.len()).collect();
        print!("{share:<8}");
        for which in 0..contenders.len() {
            let [long, short] = times
                .each_ref()
                .map(|times| times[which].of(Way::Least, &all));
            print!(
                " | {:<8} {long:>7.2} {short:>7.2} {:>7.2}",
                "",
                short / long
            );
        }
        println!();
    }
}

/// Images judged by themselves, in the same rounds as the traces that they are of.
fn print_images(contenders: &mut [Box<dyn Contender>], keys: usize) {
    let mut traces = timed(COMMITS, keys);
    traces.extend(asking(NUMBER / 2, COMMITS, keys));
    let images = images(&traces);
    check_images(contenders, &images);
    let bytes: usize = images.iter().map(|image| image.bytes.len()).sum();
    println!(
        "\nimages, {keys} keys: {} images, mean {} bytes",
        images.len(),
        bytes / images.len()
    );
    let tasks = [(&JUDGE, &traces[..]), (&IMAGE, &images[..])];
    let times = time_each(contenders, tasks);
    for style in Style::ALL.into_iter().chain(Style::ASKING) {
        let places: Vec<usize> = (0..traces.len())
            .filter(|&place| traces[place].style == style)
            .collect();
        let ordered = |&&place: &&usize| {
            contenders[0].call(&IMAGE, &images[place].bytes, &mut [0; ROOM]);
            contenders[0].words(IMAGE.call)[0] == 0
        };
        let orders = places.iter().filter(ordered).count();
        let name = style.name();
        println!("{name}: {} images, {orders} with an order", places.len());
        print_head(contenders);
        for (timed, times) in [JUDGE, IMAGE].iter().zip(&times) {
            for way in Way::ALL {
                print_row(timed.name, way, &means(times, way, &places));
            }
        }
    }
}

/// The plain second engine beside the judge, by commits and keys. The ordinary judge
/// has one engine, and its row is that of its judge.
fn print_plain(contenders: &mut [Box<dyn Contender>]) {
    let sizes = [(8, 8), (16, 16), (32, 16), (COMMITS, 16), (COMMITS, 32)];
    for (commits, keys) in sizes {
        let mut traces = timed(commits, keys);
        traces.truncate(PLAIN_TRACES);
        for timed in [&JUDGE, &PLAIN] {
            check(contenders, timed, &traces);
        }
        println!(
            "\nplain, {commits} commits, {keys} keys: {}",
            describe(&traces)
        );
        let tasks = [(&JUDGE, &traces[..]), (&PLAIN, &traces[..])];
        let times = time_each(contenders, tasks);
        let all: Vec<usize> = (0..traces.len()).collect();
        print_head(contenders);
        for (timed, times) in [JUDGE, PLAIN].iter().zip(&times) {
            for way in Way::ALL {
                print_row(timed.name, way, &means(times, way, &all));
            }
        }
    }
}

/// How the time for an image grows.
fn print_growth_of_images(contenders: &mut [Box<dyn Contender>]) {
    println!("\nimages by commits and keys, {NUMBER} each");
    let by_commits = [1, 2, 4, 8, 16, 32, 48].map(|commits| (commits, KEYS[1]));
    let by_keys = [1, 2, 4, 8, 16, 32].map(|keys| (COMMITS, keys));
    for (commits, keys) in by_commits.into_iter().chain(by_keys) {
        let images = images(&timed(commits, keys));
        check_images(contenders, &images);
        let times = time(contenders, &IMAGE, &images);
        let all: Vec<usize> = (0..images.len()).collect();
        let bytes: usize = images.iter().map(|image| image.bytes.len()).sum();
        let mean = bytes / images.len();
        println!("{commits} commits, {keys} keys, mean {mean} bytes");
        for way in Way::ALL {
            print_row(IMAGE.name, way, &means(&times, way, &all));
        }
    }
}

/// The time of each contender, and the ratios to the first.
fn print_row(name: &str, way: Way, times: &[f64]) {
    print!("{name:<12} {:>10}", way.name());
    for time in times {
        print!(" {time:>9.2}");
    }
    for time in &times[1..] {
        print!(" {:>9.2}", time / times[0]);
    }
    println!();
}

/// The mean length of the replays.
fn mean_replay(contender: &mut Box<dyn Contender>, traces: &[Trace]) -> u64 {
    let mut buffer = vec![0; REPLAY.room];
    let length = |trace: &Trace| {
        contender.call(&REPLAY, &trace.bytes, &mut buffer);
        contender.words(REPLAY.call)[1]
    };
    traces.iter().map(length).sum::<u64>() / traces.len() as u64
}

/// One line for each size: how the time grows.
fn print_growth(contenders: &mut [Box<dyn Contender>], sizes: &[(usize, usize)]) {
    print!("{:>7} {:>5} {:>8}", "commits", "keys", "bytes");
    for (place, contender) in contenders.iter().enumerate() {
        print!("   {:>10}", contender.name());
        for way in &Way::ALL[1..] {
            print!(" {:>10}", way.name());
        }
        if place > 0 {
            print!(" {:>10}", "ratios");
        }
    }
    println!();
    for &(commits, keys) in sizes {
        let traces = timed(commits, keys);
        check(contenders, &JUDGE, &traces);
        let times = time(contenders, &JUDGE, &traces);
        let all: Vec<usize> = (0..traces.len()).collect();
        let bytes: usize = traces.iter().map(|trace| trace.bytes.len()).sum();
        print!("{commits:>7} {keys:>5} {:>8}  ", bytes / traces.len());
        for (place, other) in times.iter().enumerate() {
            for way in Way::ALL {
                print!(" {:>10.2}", other.of(way, &all));
            }
            if place > 0 {
                for way in Way::ALL {
                    print!(" {:>5.2}", other.of(way, &all) / times[0].of(way, &all));
                }
            }
            print!("  ");
        }
        println!();
    }
}

fn main() {
    let mut contenders = contenders();
    println!("microseconds per trace, {ROUNDS} rounds, one thread");
    println!("least, median: of the rounds' means; each least: the mean of each trace's least");
    println!("the image buffer is cleared once before the rounds and not between traces;");
    println!("the ordinary judge keeps its workspace and clears in it only what it must");
    println!("reading the clock adds {:.3} to each time", clock_cost());
    if contenders.len() > 1 {
        println!("the judges take turns in each round, on the same traces and buffer");
    }

    let asked = |word: &str| std::env::args().any(|argument| argument == word);
    if asked("--editions") {
        for keys in KEYS {
            print_editions(&mut contenders, keys);
            print_touching(&mut contenders, keys);
        }
        return;
    }
    if asked("--odd") {
        print_odd(&mut contenders);
        return;
    }
    if asked("--plain") {
        print_plain(&mut contenders);
        return;
    }
    if asked("--images") {
        for keys in KEYS {
            print_images(&mut contenders, keys);
        }
        print_growth_of_images(&mut contenders);
        return;
    }
    let [long, wide] = KEYS.map(|keys| timed(COMMITS, keys));
    print_judge(&mut contenders, [&long, &wide]);
    print_pieces(&mut contenders, [&long, &wide]);
    drop(wide);
    print_replay(&mut contenders, long);
    print_asking(&mut contenders);
    print_odd(&mut contenders);
    for keys in KEYS {
        print_editions(&mut contenders, keys);
        print_touching(&mut contenders, keys);
    }
    for keys in KEYS {
        print_images(&mut contenders, keys);
    }
    if asked("--short") {
        return;
    }
    print_growth_of_images(&mut contenders);

    println!("\nby commits, {NUMBER} traces each");
    let sizes = [1, 2, 4, 8, 16, 24, 32, 48, COMMITS].map(|commits| (commits, KEYS[0]));
    print_growth(&mut contenders, &sizes);

    println!("\nby keys, {NUMBER} traces each");
    let sizes = [1, 2, 4, 8, 12, 16, 20, 24, 28, 32].map(|keys| (COMMITS, keys));
    print_growth(&mut contenders, &sizes);
}
