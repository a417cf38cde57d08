//! Compares the library with the Rust original, case by case and byte by byte.
//!
//! `compare [--whole] [--large] [--cases N] [--seed S] [--only GROUP] [--threads T] [--bare]`: about N
//! cases (a bounded share by default), or all of them; with --large also tables of some hundred words, a
//! share of them in the same measure. The last line is `N passed, M failed`.

use differential::case::Tally;
use differential::groups::{Share, GROUPS, WHOLE};
use differential::lend;
use differential::training::RETURNED;
use std::process::exit;
use std::sync::atomic::Ordering::Relaxed;
use std::thread;
use std::time::Instant;

/// About as many cases as are run by default.
const DEFAULT_CASES: u64 = 20_000;

struct Arguments {
    cases: u64,
    seed: u64,
    only: Option<String>,
    threads: u64,
    large: bool,
}

fn arguments() -> Option<Arguments> {
    let threads = thread::available_parallelism().map_or(1, |n| n.get() as u64);
    let mut parsed = Arguments { cases: DEFAULT_CASES, seed: 1, only: None, threads, large: false };
    let mut list = std::env::args().skip(1);
    while let Some(argument) = list.next() {
        match &argument[..] {
            "--large" => parsed.large = true,
            "--whole" => parsed.cases = WHOLE,
            "--cases" => parsed.cases = list.next()?.parse().ok()?,
            "--seed" => parsed.seed = list.next()?.parse().ok()?,
            "--threads" => parsed.threads = list.next()?.parse().ok().filter(|&n| n > 0)?,
            "--only" => parsed.only = Some(list.next()?),
            "--bare" => lend::lend_bare(),
            _ => return None,
        }
    }
    Some(parsed)
}

/// Runs a group's share on all threads.
fn run(name: &'static str, group: fn(&Share, &mut Tally), share: Share) -> Tally {
    let one = |thread| {
        move || {
            let mut tally = Tally::new(name);
            group(&Share { thread, ..share }, &mut tally);
            tally
        }
    };
    let mut sum = Tally::new(name);
    thread::scope(|scope| {
        let running: Vec<_> = (0..share.threads).map(|number| scope.spawn(one(number))).collect();
        for handle in running {
            let tally = handle.join().expect("a comparison does not panic");
            sum.passed += tally.passed;
            sum.failed += tally.failed;
        }
    });
    sum
}

fn main() {
    let Some(arguments) = arguments() else {
        eprintln!("compare [--whole] [--large] [--cases N] [--seed S] [--only GROUP] [--threads T] [--bare]");
        exit(2);
    };
    let stride = (WHOLE / arguments.cases.max(1)).max(1);
    let share = Share {
        seed: arguments.seed,
        stride,
        huge: stride == 1,
        large: arguments.large,
        thread: 0,
        threads: arguments.threads,
    };
    let (mut passed, mut failed) = (0, 0);
    for &(name, group) in GROUPS {
        if arguments.only.as_ref().is_some_and(|only| only != name) {
            continue;
        }
        let start = Instant::now();
        let tally = run(name, group, share);
        let seconds = start.elapsed().as_secs_f64();
        if tally.passed + tally.failed > 0 {
            println!("{name}: {} passed, {} failed ({seconds:.1} s)", tally.passed, tally.failed);
        }
        passed += tally.passed;
        failed += tally.failed;
    }
    let returned = RETURNED.iter().enumerate().map(|(number, times)| format!("{number} {}x", times.load(Relaxed)));
    println!("training returned {}", returned.collect::<Vec<_>>().join(", "));
    println!("{passed} passed, {failed} failed");
    exit(if failed == 0 { 0 } else { 1 });
}
