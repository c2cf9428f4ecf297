//! The proved library and quiche at the same work, in one process.
//!
//!     bench check                  runs every workload once on both sides and compares what comes out
//!     bench times REPEATS          after that check: the median of REPEATS runs of each side, in microseconds
//!     bench one WORK SIDE RUNS     RUNS runs of one side (ours, quiche, limit) and nothing else: for counting instructions
//!     bench table                  reads results, writes the table
//!     bench svg                    reads results, writes the picture
//!
//! A result is a line: the workload, then microseconds of ours, quiche and the limit, then instructions of the same; `-` for none.

mod limit;
mod ours;
#[allow(dead_code)]
#[path = "../../compare/src/quiche.rs"]
mod quiche;
#[allow(dead_code)]
#[path = "../../bindings/rust/src/raw.rs"]
mod raw;
mod report;
#[allow(dead_code)]
#[path = "../../compare/src/script.rs"]
mod script;
mod theirs;
mod work;

// The names that quiche's files take from their crate's root.
use quiche::buffers;
use quiche::flowcontrol;
use quiche::range_buf;
use quiche::ranges;
use quiche::stream;
use quiche::BufFactory;
use quiche::Error;
use quiche::Result;

use std::hint::black_box;
use std::time::Instant;
use work::Room;
use work::Run;
use work::PASSING;
use work::WORKS;

const SIDES: [&str; 3] = ["ours", "quiche", "limit"];

fn run_of(work: &str, side: &str) -> Option<Run> {
    match side {
        "ours" => ours::run_of(work),
        "quiche" => theirs::run_of(work),
        "limit" => limit::run_of(work),
        _ => None,
    }
}

/// What a side puts out in a run. W2 puts out nothing, so all that it wrote is emitted here.
fn put_out(work: &str, side: &str, room: &mut Room) -> Vec<u8> {
    room.out.fill(0);
    match (work, side) {
        ("W2", "ours") => {
            let s = ours::written_whole(room);
            ours::emitted_whole(s, room);
        }
        ("W2", "quiche") => {
            let s = theirs::written_whole(room);
            theirs::emitted_whole(s, room);
        }
        _ => run_of(work, side).expect("both sides have every workload")(room),
    }
    room.out.clone()
}

/// A bench of a wrong program is worth nothing: both sides must put out what the workload says, to the byte.
fn check(room: &mut Room) {
    for work in WORKS {
        let expected = room.expected(work);
        for side in ["ours", "quiche"] {
            let out = put_out(work, side, room);
            assert!(out[..expected.len()] == expected, "{work}: {side} put out something else");
        }
    }
    eprintln!("check: both sides put out the same bytes in all {} workloads", WORKS.len());
}

fn micros(run: Run, room: &mut Room) -> f64 {
    let start = Instant::now();
    run(black_box(room));
    start.elapsed().as_secs_f64() * 1e6
}

fn median(mut all: Vec<f64>) -> f64 {
    all.sort_by(f64::total_cmp);
    all[all.len() / 2]
}

/// The sides take turns within each repeat, and a repeat later in another order, so that what the machine does besides hits all alike.
fn times(work: &str, repeats: usize, room: &mut Room) {
    let runs: Vec<Option<Run>> = SIDES.iter().map(|side| run_of(work, side)).collect();
    let mut taken = vec![Vec::with_capacity(repeats); SIDES.len()];
    for i in 0..repeats + repeats / 10 {
        for j in 0..SIDES.len() {
            let side = (i + j) % SIDES.len();
            let Some(run) = runs[side] else { continue };
            let took = micros(run, room);
            if i >= repeats / 10 {
                taken[side].push(took);
            }
        }
        if i % (repeats / 10).max(1) == 0 {
            eprint!("\r{work}: {i} of {repeats} repeats   ");
        }
    }
    eprint!("\r{:40}\r", "");
    let told = taken.into_iter().map(|all| match all.len() {
        0 => "-".to_string(),
        _ => format!("{:.2}", median(all)),
    });
    println!("{work} {}", told.collect::<Vec<String>>().join(" "));
}

fn main() {
    let args: Vec<String> = std::env::args().skip(1).collect();
    let words: Vec<&str> = args.iter().map(String::as_str).collect();
    let mut room = Room::new();
    match words[..] {
        ["check"] => check(&mut room),
        ["times", repeats] => {
            let repeats = repeats.parse().expect("REPEATS is a number");
            check(&mut room);
            for work in WORKS.into_iter().chain(PASSING) {
                times(work, repeats, &mut room);
            }
        }
        ["one", work, side, runs] => {
            let run = run_of(work, side).unwrap_or_else(|| std::process::exit(3));
            for _ in 0..runs.parse().expect("RUNS is a number") {
                run(black_box(&mut room));
            }
        }
        ["table"] => print!("{}", report::table(&report::results())),
        ["svg"] => print!("{}", report::picture(&report::results())),
        _ => {
            eprintln!("usage: bench check | times REPEATS | one WORK ours|quiche|limit RUNS | table | svg");
            std::process::exit(2)
        }
    }
}
