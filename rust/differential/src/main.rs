//! Holds the proved book against the reference implementation.
//!
//!     cargo run --release                    the directed days, then days of seeds from 1 on until a million calls; then replays
//!     cargo run --release -- FIRST DAYS      the days of so many seeds, from FIRST on
//!     cargo run --release -- FILE            a stored day

#![forbid(unsafe_code)]

use differential::{directed, play, replay, shrink, Counts, Day};
use std::path::Path;
use std::process::ExitCode;
use std::{env, fs};

/// How many calls the default run makes at the least.
const CALLS: u64 = 1_000_000;
/// The days of so many seeds are replayed.
const REPLAYS: u64 = 2_000;

fn main() -> ExitCode {
    let words: Vec<String> = env::args().skip(1).collect();
    let words: Vec<&str> = words.iter().map(String::as_str).collect();
    let done = match words[..] {
        [] => default_run(),
        [file] => stored(file),
        [first, days] => match (first.parse(), days.parse()) {
            (Ok(first), Ok(days)) => seeds(first, days, u64::MAX).map(|counts| report(&counts)),
            _ => Err(String::from("FIRST and DAYS are numbers")),
        },
        _ => Err(String::from("usage: differential [FILE | FIRST DAYS]")),
    };
    match done {
        Ok(()) => ExitCode::SUCCESS,
        Err(why) => {
            println!("{why}");
            ExitCode::FAILURE
        }
    }
}

fn default_run() -> Result<(), String> {
    let mut counts = Counts::default();
    for (name, day) in directed::days() {
        counts += &tried(&name, &day)?;
    }
    println!("directed days: {}, calls: {}", counts.days, counts.calls);
    let most = CALLS.saturating_sub(counts.calls);
    counts += &seeds(1, u64::MAX, most)?;
    report(&counts);
    replays()
}

/// Streams replayed by the program, some of them cut short or too long.
fn replays() -> Result<(), String> {
    let Some(program) = replay::program() else {
        println!("replays: none, since the program is not built (./replay builds it)");
        return Ok(());
    };
    for seed in 1..=REPLAYS {
        let stream = replay::stream(&Day::of_seed(seed), seed);
        replay::compare(&program, &stream).map_err(|why| format!("replay of seed {seed} fails. {why}"))?;
    }
    println!("replays: seeds 1 to {REPLAYS}, no difference");
    Ok(())
}

/// Days of seeds, until there were so many days or so many calls.
fn seeds(first: u64, days: u64, calls: u64) -> Result<Counts, String> {
    let mut counts = Counts::default();
    let mut seed = first;
    while counts.days < days && counts.calls < calls {
        counts += &tried(&format!("seed-{seed}"), &Day::of_seed(seed))?;
        seed += 1;
    }
    println!("seeds: {first} to {}", seed - 1);
    Ok(counts)
}

/// A stored day. Its comments say where it came from.
fn stored(file: &str) -> Result<(), String> {
    let text = fs::read_to_string(file).map_err(|why| format!("{file}: {why}"))?;
    let day = Day::from_text(&text).map_err(|line| format!("{file}: line {line} is not understood"))?;
    let counts = play(&day).map_err(|why| format!("{file} fails. {why}"))?;
    report(&counts);
    Ok(())
}

/// Plays a day; one that fails is shrunk and stored.
fn tried(name: &str, day: &Day) -> Result<Counts, String> {
    play(day).map_err(|why| {
        let least = shrink(day, |day| play(day).is_err());
        let left = play(&least).err().unwrap_or_default();
        let file = format!("failures/{name}.day");
        let comment =
            format!("{name}, {} of its {} calls: {left}\ncargo run --release -- {file}", least.calls.len(), day.calls.len());
        let path = Path::new(env!("CARGO_MANIFEST_DIR")).join(&file);
        let kept = match fs::write(path, least.to_text(&comment)) {
            Ok(()) => format!("Stored; again by: cargo run --release -- {file}"),
            Err(why) => format!("Not stored ({why}):\n{}", least.to_text(&comment)),
        };
        format!("{name} fails. {why}\nCut down to calls: {}. {left}\n{kept}", least.calls.len())
    })
}

fn report(counts: &Counts) {
    println!("days: {}, calls: {}", counts.days, counts.calls);
    println!("openings by verdict:{}", by_verdict(&counts.openings));
    println!("calls by verdict:{}", by_verdict(&counts.verdicts));
    println!("readings: {}, of hourly exposures among them: {}", counts.readings, counts.hourly_readings);
    let [above, none] = counts.hourly_sums;
    println!("hourly exposures summed: {}, sums beside their exposures: above 0 {above}, 0 {none}", counts.hourly_summed);
    println!("batches undone: {}, calls of the lists with empty kept ones in their place: {}", counts.undone, counts.matched);
    println!("calls on a changed byte: no book {}, still a book {}", counts.damaged, counts.undamaged);
    println!("calls on a changed margin: no book {}, still a book {}", counts.margins_broken, counts.margins_kept);
    println!("days settled: {}, balances held against the totals of hourly amounts: {}", counts.settled, counts.balances);
    let [purchases, sales, ccts] = counts.hours;
    println!("account hours valued: with a purchase {purchases}, with a sale {sales}, with a CCT {ccts}");
    let [injections, withdrawals, mixed] = counts.registered;
    println!("schedules registered: injections {injections}, withdrawals {withdrawals}, withdrawals on mixed points {mixed}");
    let [accepted, refused] = counts.strips;
    println!("strips: accepted {accepted} with rows {}, refused {refused}", counts.strip_rows);
    let [accepted, refused] = counts.of_one;
    println!("strips of one row beside their registers: accepted {accepted}, refused {refused}");
    println!("accepted strips beside their registers in turn: {}", counts.in_turn);
    let ([asks, asks_refused], [commits, commits_refused]) = (counts.asks, counts.commits);
    println!("asks: accepted {asks}, refused {asks_refused}; commits: accepted {commits}, refused {commits_refused}");
    println!(
        "asks beside their registers: {}, accepted commits beside their asks: {}",
        counts.asks_beside, counts.commits_beside
    );
    println!("calls on a changed ask: no book {}, still a book {}", counts.asks_broken, counts.asks_kept);
    println!("no difference");
}

fn by_verdict(counts: &[u64]) -> String {
    let seen = counts.iter().enumerate().filter(|(_, &count)| count > 0);
    seen.map(|(number, count)| format!("  {number}: {count}")).collect()
}
