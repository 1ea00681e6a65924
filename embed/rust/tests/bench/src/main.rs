//! A client and a server of one crate over a socket pair, in one thread: the drop-in beside the original, in one run.
//!
//!     bench [ROUNDS [CASE [PEER]]]
//!
//! Each case is measured ROUNDS times by turns (21 if that is left out). A line has the nanoseconds of an operation over
//! each peer, the processor's time of the thread in user and kernel, and their ratio: medians. CASE is a part of the names
//! of the cases that are run, or a whole one behind `=`. With PEER (original or drop-in) that one alone is run.

use rustix::time::{clock_gettime, ClockId};

mod peer;

/// What a run does so many times.
#[derive(Clone, Copy, PartialEq)]
enum Operation {
    /// A sync of the client, answered, and read.
    Sync,
    /// A request with a number, handled.
    Request,
    /// A request with a text and an object, handled.
    Text,
    /// An object of the client: made, destroyed, and its number freed.
    Life,
    /// An event with a number, handled.
    Event,
}

struct Case {
    name: &'static str,
    operation: Operation,
    /// How many operations stand between two flushes.
    batch: u32,
    /// How many other clients the server has, which do nothing.
    idle: usize,
}

const fn case(name: &'static str, operation: Operation, batch: u32, idle: usize) -> Case {
    Case {
        name,
        operation,
        batch,
        idle,
    }
}

const CASES: [Case; 16] = [
    case("sync, 1", Operation::Sync, 1, 0),
    case("sync, 10", Operation::Sync, 10, 0),
    case("sync, 100", Operation::Sync, 100, 0),
    case("request, 1", Operation::Request, 1, 0),
    case("request, 100", Operation::Request, 100, 0),
    case("text, 1", Operation::Text, 1, 0),
    case("text, 100", Operation::Text, 100, 0),
    case("life, 1", Operation::Life, 1, 0),
    case("life, 100", Operation::Life, 100, 0),
    case("event, 1", Operation::Event, 1, 0),
    case("event, 100", Operation::Event, 100, 0),
    case("sync, 1, 1000 idle", Operation::Sync, 1, 1000),
    case("request, 1, 1000 idle", Operation::Request, 1, 1000),
    case("life, 100, 100 idle", Operation::Life, 100, 100),
    case("life, 100, 1000 idle", Operation::Life, 100, 1000),
    case("event, 100, 1000 idle", Operation::Event, 100, 1000),
];

/// A client and a server.
trait Pair {
    /// Does the operation `batch` times, with one flush.
    fn run(&mut self, operation: Operation, batch: u32);
    /// How many events, requests and ends of objects the program has seen.
    fn seen(&self) -> u64;
}

/// Makes a pair whose server has so many idle clients.
type Maker = fn(usize) -> Box<dyn Pair>;

peer::peer!(original_peer, original);
peer::peer!(drop_in_peer, drop_in);

/// The processor's time of this thread in nanoseconds.
fn now() -> u64 {
    let time = clock_gettime(ClockId::ThreadCPUTime);
    time.tv_sec as u64 * 1_000_000_000 + time.tv_nsec as u64
}

/// The nanoseconds of an operation, over so many that it takes some milliseconds.
#[inline(never)]
fn measure(pair: &mut dyn Pair, case: &Case) -> f64 {
    let turns = (2000 / case.batch).max(20);
    let (before, seen) = (now(), pair.seen());
    for _ in 0..turns {
        pair.run(case.operation, case.batch);
    }
    let time = now() - before;
    let operations = u64::from(turns * case.batch);
    let expected = match case.operation {
        Operation::Life => 3 * operations,
        Operation::Sync => 2 * operations,
        _ => operations,
    };
    assert_eq!(pair.seen() - seen, expected, "{}", case.name);
    time as f64 / operations as f64
}

fn median(mut values: Vec<f64>) -> f64 {
    values.sort_by(f64::total_cmp);
    values[values.len() / 2]
}

fn main() {
    let arguments: Vec<String> = std::env::args().collect();
    let rounds = arguments
        .get(1)
        .map_or(21, |word| word.parse().expect("ROUNDS is a number"));
    let word = arguments.get(2).map_or("", String::as_str);
    let is_asked = |name: &str| match word.strip_prefix('=') {
        Some(whole) => name == whole,
        None => name.contains(word),
    };
    let only = arguments.get(3).map(String::as_str);
    println!(
        "{:24} {:>10} {:>10} {:>6}",
        "operation, batch", "original", "drop-in", "ratio"
    );
    for case in CASES.iter().filter(|case| is_asked(case.name)) {
        let makers = [
            ("original", original_peer::pair as Maker),
            ("drop-in", drop_in_peer::pair as Maker),
        ];
        let mut pairs: Vec<Option<Box<dyn Pair>>> = makers
            .iter()
            .map(|(name, make)| {
                only.is_none_or(|only| only == *name)
                    .then(|| make(case.idle))
            })
            .collect();
        let mut times = [Vec::new(), Vec::new()];
        for round in 0..=rounds {
            for (pair, times) in pairs.iter_mut().zip(&mut times) {
                let time = pair.as_mut().map_or(0.0, |pair| measure(&mut **pair, case));
                // The first round warms up.
                if round > 0 {
                    times.push(time);
                }
            }
        }
        let [original, drop_in] = times.map(median);
        println!(
            "{:24} {original:10.0} {drop_in:10.0} {:6.2}",
            case.name,
            drop_in / original
        );
    }
}
