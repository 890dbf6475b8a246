//! A short run, the stored days, and the tools of the long run.

use differential::{directed, play, shrink, Counts, Day};
use std::fs;
use std::path::Path;

#[test]
fn directed_days_show_no_difference() {
    for (name, day) in directed::days() {
        if let Err(why) = play(&day) {
            panic!("{name}: {why}");
        }
    }
}

#[test]
fn directed_days_of_hourly_amounts_register_what_they_are_made_for() {
    // Injections, withdrawals, and withdrawals on mixed points.
    let expected = [
        ("amounts-balance-zero", [5, 3, 2]),
        ("amounts-pun", [12, 4, 8]),
        ("amounts-two-zones", [7, 2, 8]),
        ("amounts-greatest", [125, 0, 125]),
        ("amounts-greatest-zonal", [125, 0, 125]),
        ("amounts-last-of-23", [3, 1, 3]),
        ("amounts-last-of-24", [3, 1, 3]),
        ("amounts-last-of-25", [3, 1, 3]),
    ];
    let mut found = directed::days();
    found.retain(|(name, _)| name.starts_with("amounts-"));
    assert_eq!(found.len(), expected.len());
    for ((name, day), (expected_name, registered)) in found.iter().zip(expected) {
        let counts = play(day).unwrap();
        assert_eq!(name, expected_name);
        assert_eq!(counts.registered, registered, "{name}");
        assert_eq!((counts.settled, counts.verdicts[0]), (1, counts.calls), "{name}");
    }
}

#[test]
fn days_of_some_seeds_show_no_difference() {
    let mut counts = Counts::default();
    for seed in 1_000_000..1_000_300 {
        match play(&Day::of_seed(seed)) {
            Ok(more) => counts += &more,
            Err(why) => panic!("seed {seed}: {why}"),
        }
    }
    assert!(counts.settled > 200 && counts.balances > 400);
    assert!(counts.hours.iter().chain(&counts.registered).all(|&count| count > 100));
    assert!(counts.strips.iter().all(|&count| count > 300) && counts.strip_rows > 1_500);
    assert!(counts.of_one.iter().all(|&count| count > 300) && counts.in_turn == counts.strips[0]);
    assert!(counts.verdicts[21] > 5 && counts.verdicts[22] > 5);
    assert!(counts.asks.iter().chain(&counts.commits).all(|&count| count > 400) && counts.verdicts[23] > 400);
    assert_eq!(counts.asks_beside, counts.asks.iter().sum::<u64>());
    assert_eq!(counts.commits_beside, counts.commits[0]);
    assert!(counts.asks_broken > 500 && counts.asks_kept > 500 && counts.undone > 200);
    let sums = counts.hourly_sums.iter().sum::<u64>();
    assert!((23 * sums..=25 * sums).contains(&counts.hourly_summed) && counts.hourly_sums.iter().all(|&count| count > 20_000));
    assert!(counts.hourly_readings > 20_000);
}

#[test]
fn directed_days_of_strips_answer_what_they_are_made_for() {
    // Strips accepted, and how often a call answers 15, 18, 19, 21 and 22.
    let expected = [
        ("strips", 25, [0, 0, 0, 0, 0]),
        ("strips-batches", 13, [0, 0, 0, 0, 0]),
        ("strips-margins", 37, [0, 120, 1, 0, 0]),
        ("strips-shapes", 28, [0, 0, 0, 235, 0]),
        ("strips-rows", 0, [0, 0, 0, 0, 0]),
        ("strips-rank", 2, [4, 7, 5, 0, 14]),
        ("strips-231", 5, [0, 0, 0, 3, 7]),
        ("strips-232", 6, [2, 0, 0, 2, 7]),
        ("strips-233", 4, [5, 0, 0, 1, 7]),
        ("strips-255", 2, [7, 0, 0, 1, 7]),
        ("strips-256", 0, [13, 0, 0, 2, 7]),
    ];
    let days = directed::days();
    for (name, strips, numbers) in expected {
        let (_, day) = days.iter().find(|(of, _)| of == name).unwrap();
        let counts = play(day).unwrap();
        let found = [15, 18, 19, 21, 22].map(|number: usize| counts.verdicts[number]);
        assert_eq!((counts.strips[0], found), (strips, numbers), "{name}");
    }
}

#[test]
fn directed_days_of_asks_answer_what_they_are_made_for() {
    // Asks and commits, accepted and refused, and how often a call answers 11, 14, 15, 18, 19 and 23.
    let expected = [
        ("asks", [12, 5], [5, 10], [4, 2, 0, 0, 0, 6]),
        ("asks-fields", [158, 13], [73, 183], [0, 12, 0, 0, 0, 181]),
        ("asks-clearing", [82, 1], [19, 63], [5, 1, 0, 0, 1, 60]),
        ("asks-batches", [37, 5], [10, 22], [0, 5, 0, 0, 0, 22]),
        ("asks-limits", [182, 60], [70, 159], [0, 0, 0, 51, 10, 159]),
        ("asks-all", [1024, 0], [32, 32], [0, 0, 0, 0, 0, 32]),
        ("asks-rank", [50, 244], [0, 294], [106, 16, 60, 5, 5, 76]),
        ("asks-254", [12, 8], [2, 8], [0, 1, 7, 0, 0, 8]),
        ("asks-255", [6, 14], [1, 9], [0, 1, 13, 0, 0, 9]),
        ("asks-256", [0, 20], [0, 10], [0, 1, 19, 0, 0, 10]),
    ];
    let days = directed::days();
    for (name, asks, commits, numbers) in expected {
        let (_, day) = days.iter().find(|(of, _)| of == name).unwrap();
        let counts = play(day).unwrap();
        let found = [11, 14, 15, 18, 19, 23].map(|number: usize| counts.verdicts[number]);
        assert_eq!((counts.asks, counts.commits, found), (asks, commits, numbers), "{name}");
    }
}

#[test]
fn stored_days_show_no_difference() {
    let folder = Path::new(env!("CARGO_MANIFEST_DIR")).join("failures");
    for entry in fs::read_dir(folder).unwrap() {
        let path = entry.unwrap().path();
        if path.extension().is_none_or(|extension| extension != "day") {
            continue;
        }
        let day = Day::from_text(&fs::read_to_string(&path).unwrap());
        let day = day.unwrap_or_else(|line| panic!("{path:?}: line {line} is not understood"));
        if let Err(why) = play(&day) {
            panic!("{path:?}: {why}");
        }
    }
}

#[test]
fn a_day_is_read_back_from_its_text() {
    for seed in 1..40 {
        let day = Day::of_seed(seed);
        assert_eq!(Day::from_text(&day.to_text("any\ncomment")), Ok(day));
    }
}

#[test]
fn a_failing_day_is_cut_down_to_what_it_takes() {
    let day = (1..).map(Day::of_seed).find(|day| day.calls.len() > 20).unwrap();
    let wanted = [&day.calls[3], &day.calls[11], &day.calls[17]];
    let fails = |day: &Day| {
        let mut left = wanted.iter();
        let mut next = left.next();
        for call in &day.calls {
            if next == Some(&call) {
                next = left.next();
            }
        }
        next.is_none()
    };
    let least = shrink(&day, fails);
    assert!(fails(&least));
    assert_eq!(least.calls.len(), wanted.len());
}
