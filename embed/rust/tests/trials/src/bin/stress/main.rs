//! A server of five threads, and many clients that come, do well or die in many ways, and come again.
//!
//! ```text
//! stress LIVES CLIENTS later|at_once|racy
//! ```
//!
//! A frame callback is done some time after its request, in the request's handler, or by another thread as soon as that sees it.

mod clients;
mod deaths;
mod senders;
mod server;

use std::collections::BTreeMap;
use std::process::ExitCode;
use std::sync::atomic::Ordering::SeqCst;
use std::sync::{Arc, Mutex};
use std::thread;
use std::time::{Duration, Instant};

use clients::Fate;
use server::{Running, Shared, When};
use trials::by_hand::Random;
use trials::counted::Checks;
use trials::process::descriptors;

/// Every fourth client is one of wayland-client.
const OF_THEM_WELL: usize = 4;

#[derive(Default)]
struct Lived {
    ways: BTreeMap<&'static str, usize>,
    fates: Vec<Fate>,
}

fn live(number: usize, lives: usize, path: &str, lived: &Mutex<Lived>) {
    let mut random = Random::new(number as u64);
    for life in 0..lives {
        if number % OF_THEM_WELL == 1 {
            let fate = clients::live(path, life % 3 == 2);
            lived.lock().unwrap().fates.push(fate);
        } else {
            let (way, die) = deaths::WAYS[random.below(deaths::WAYS.len() as u64) as usize];
            die(path, &mut random);
            *lived.lock().unwrap().ways.entry(way).or_default() += 1;
        }
    }
}

fn all_clients(count: usize, lives: usize, path: &str) -> Lived {
    let lived = Arc::new(Mutex::new(Lived::default()));
    let threads: Vec<_> = (0..count)
        .map(|number| {
            let (path, lived) = (path.to_string(), lived.clone());
            thread::spawn(move || live(number, lives, &path, &lived))
        })
        .collect();
    let panics = threads.into_iter().filter_map(|it| it.join().err()).count();
    assert_eq!(panics, 0, "clients panic");
    let lived = std::mem::take(&mut *lived.lock().unwrap());
    lived
}

/// The server has yet to see that the last ones left.
fn wait_for_ends(shared: &Shared) {
    let begun = Instant::now();
    while shared.counts.initialized.load(SeqCst) != shared.counts.disconnected.load(SeqCst)
        && begun.elapsed() < Duration::from_secs(20)
    {
        thread::sleep(Duration::from_millis(20));
    }
    thread::sleep(Duration::from_millis(300));
}

fn check_server(checks: &mut Checks, shared: &Shared, clients: usize) {
    let counts = &shared.counts;
    checks.check(
        "each client was told that it is initialized",
        counts.initialized.load(SeqCst) == clients,
    );
    checks.equal(
        "as many were told that they are disconnected",
        counts.disconnected.load(SeqCst),
        counts.initialized.load(SeqCst),
    );
    checks.check("objects were made", counts.made.load(SeqCst) > 10 * clients);
    checks.equal(
        "as many were told that they are destroyed",
        counts.destroyed.load(SeqCst),
        counts.made.load(SeqCst),
    );
    checks.equal("none was told twice", counts.told_twice.load(SeqCst), 0);
    checks.equal("no request came to one after its end", counts.after_end.load(SeqCst), 0);
}

fn check_clients(checks: &mut Checks, lived: &Lived, shared: &Shared) {
    checks.check(
        &format!("clients died in {} ways", lived.ways.len()),
        lived.ways.len() == deaths::WAYS.len(),
    );
    let (mut whole, mut ended, mut got) = (0, Vec::new(), clients::Got::default());
    for fate in &lived.fates {
        match fate {
            Fate::Whole(it) => {
                whole += 1;
                got.add(it);
            }
            Fate::Left => {}
            Fate::Ended(why) => ended.push(why),
        }
    }
    checks.check(&format!("{whole} clients of wayland-client lived to their end"), whole > 0);
    checks.equal("nothing that they got was wrong", &got.wrong, &Vec::new());
    checks.check("they got keymaps and offers", got.keymaps > 0 && got.offers > 0);
    let (kills, count) = (shared.counts.kills.load(SeqCst), ended.len());
    checks.check(
        &format!("{count} were ended by the server, of {kills} that it killed"),
        count <= kills && kills > 0,
    );
    if count > kills {
        println!("       {ended:?}");
    }
}

fn main() -> ExitCode {
    let words: Vec<String> = std::env::args().skip(1).collect();
    let [lives, count, when] = words.as_slice() else {
        panic!("usage: stress LIVES CLIENTS later|at_once|racy")
    };
    let (lives, count) = (lives.parse().unwrap(), count.parse().unwrap());
    let when = match when.as_str() {
        "later" => When::Later,
        "at_once" => When::AtOnce,
        "racy" => When::Racy,
        other => panic!("{other} is none of later, at_once, racy"),
    };
    let mut checks = Checks::default();
    let before = descriptors();
    let path = format!("/tmp/stress-{}", std::process::id());
    let running = Running::start(&path, when);
    let lived = all_clients(count, lives, &path);
    wait_for_ends(&running.shared);
    check_clients(&mut checks, &lived, &running.shared);
    check_server(&mut checks, &running.shared, lives * count);
    running.stop();
    checks.equal("no descriptor is left", descriptors(), before);
    checks.end()
}
