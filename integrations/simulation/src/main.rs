//! How soon many routers agree while keys move, over a network that loses messages: in simulated time.
//! `integrations/SIMULATION.md` says what is assumed.

mod beside;
mod check;
mod courses;
mod dice;
mod event;
mod failure;
mod ground;
mod network;
mod options;
mod plans;
mod world;

use network::{Time, SECOND};
use options::{Fault, Options, Outcome, Requests};
use std::ffi::OsString;
use std::io::{self, Write};
use std::ops::RangeInclusive;
use std::process::ExitCode;
use world::World;

const HELP: &str = "\
How soon many routers agree while keys move, over a network that loses messages: in simulated time.

  squall-simulation [--seed N] [--loss SHARE] [--requests N] [--turn-back SHARE] [--fault NAME]
                    [ROUTERS ..]

  --seed N             what happens by chance is the same for the same seed (1)
  --loss SHARE         the share of messages that are lost, below 0.9 (0.01)
  --requests N         how many requests a router has each second (10)
  --turn-back SHARE    turn the course back once this share of its chunks is given, below 1
  --fault NAME         do something wrong, which the run has to notice: forgets (a partition loses what it
                       has), and with --turn-back open (sources are not closed), early (the next course
                       begins before all are closed), short (the plan of where the keys are lacks a load)
  ROUTERS              how many routers there are, at least 3, for each run (1000)

At each moment every route of every router is followed: the partition has the key, waits for it, or names
the next one. The run ends with status 1 if that does not hold, or if a key is in the wrong place in the end.
";

fn main() -> ExitCode {
    let words: Result<Vec<String>, OsString> =
        std::env::args_os().skip(1).map(OsString::into_string).collect();
    let other = |word: OsString| format!("{}: not UTF-8", word.to_string_lossy());
    let done = words.map_err(other).and_then(|words| match words.iter().any(|word| word == "--help") {
        true => say(HELP.trim_end()),
        false => read(&words).and_then(|(options, counts)| show(options, &counts)),
    });
    match done {
        Ok(()) => ExitCode::SUCCESS,
        Err(error) => {
            let _ = writeln!(io::stderr(), "squall-simulation: {error}");
            ExitCode::FAILURE
        }
    }
}

/// Writes a line to standard output.
fn say(line: &str) -> Result<(), String> {
    writeln!(io::stdout(), "{line}").map_err(|error| format!("standard output: {error}"))
}

/// What the words ask for: the options of all runs, and the numbers of routers.
fn read(words: &[String]) -> Result<(Options, Vec<usize>), String> {
    let mut options =
        Options { routers: 0, loss: 0.01, requests: 10, to_all: true, turn_back: None, fault: None, seed: 1 };
    let mut counts = Vec::new();
    let mut words = words.iter().map(String::as_str);
    while let Some(word) = words.next() {
        let mut value = || words.next().ok_or(format!("{word} needs a value"));
        match word {
            "--seed" => options.seed = number(word, value()?, 0..=u64::MAX)?,
            "--requests" => options.requests = number(word, value()?, 1..=1_000_000)?,
            "--loss" => options.loss = share(word, value()?, 0.9)?,
            "--turn-back" => options.turn_back = Some(share(word, value()?, 1.0)?),
            "--fault" => options.fault = Some(fault(value()?)?),
            word if word.starts_with('-') => return Err(format!("{word} is not known")),
            word => counts.push(number("ROUTERS", word, 3..=1_000_000)? as usize),
        }
    }
    if counts.is_empty() {
        counts.push(1000);
    }
    Ok((options, counts))
}

/// The number of a text, if it is within the bounds.
fn number(name: &str, text: &str, bounds: RangeInclusive<u64>) -> Result<u64, String> {
    let wrong = || format!("{name} {text}: not between {} and {}", bounds.start(), bounds.end());
    text.parse().ok().filter(|it| bounds.contains(it)).ok_or_else(wrong)
}

/// The share of a text, if it is from 0 on and below the bound.
fn share(name: &str, text: &str, bound: f64) -> Result<f64, String> {
    let share = text.parse().ok().filter(|it| (0.0..bound).contains(it));
    share.ok_or(format!("{name} {text}: not from 0 on, below {bound}"))
}

/// The fault of a name.
fn fault(text: &str) -> Result<Fault, String> {
    let found = Fault::ALL.into_iter().find(|(name, _)| *name == text);
    found.map(|(_, fault)| fault).ok_or(format!("--fault {text}: not open, early, short or forgets"))
}

/// Makes the runs, and shows each as soon as it is over.
fn show(options: Options, counts: &[usize]) -> Result<(), String> {
    for &routers in counts {
        for to_all in [true, false] {
            let world = World::new(Options { routers, to_all, ..options }).map_err(|it| it.to_string())?;
            let outcome = world.run().map_err(|it| it.to_string())?;
            say(&text(routers, to_all, &outcome))?;
        }
    }
    Ok(())
}

/// The lines of a run.
fn text(routers: usize, to_all: bool, it: &Outcome) -> String {
    let told = if to_all { "each report to all routers" } else { "each report to one router a site" };
    let turned = it.turned.map_or(String::new(), |time| format!(", turned back at {:.2} s", seconds(time)));
    let courses = it
        .courses
        .iter()
        .zip(["course known", "next course"])
        .map(|(all, name)| format!("  {name:<14} {} after its beginning\n", shares(all)));
    format!(
        "{routers} routers, {told}: {} reports in {:.1} s{turned}
{}  all agree      {} after the last report
  routes         {} followed, most {} more
  bytes/s        {:.0} before, {:.0} in the course (at most {:.0}), {:.0} after
  extra hops     squall {}
                 one slot by one redirect {}, knows {:.1} % of the moved slots in the end
                 whole table at a redirect {}, {} tables",
        it.reports,
        seconds(it.took),
        courses.collect::<String>(),
        shares(&it.agreed),
        it.followed,
        it.most,
        it.before,
        it.during,
        it.most_during,
        it.after,
        hops(&it.squall),
        hops(&it.by_slot),
        it.known_slots * 100.0,
        hops(&it.by_table),
        it.tables,
    )
}

/// The times within which shares of the routers had come so far.
fn shares(all: &[Time]) -> String {
    format!("half {}, 99 % {}, all {}", times(all, 0.5), times(all, 0.99), times(all, 1.0))
}

fn seconds(time: Time) -> f64 {
    time as f64 / SECOND as f64
}

/// The time within which that share of the routers had come so far.
fn times(all: &[Time], share: f64) -> String {
    let at = ((all.len() as f64 * share).ceil() as usize).clamp(1, all.len());
    format!("{:.2} s", seconds(all[at - 1]))
}

fn hops(it: &Requests) -> String {
    format!(
        "{:.5} a request (most {}), {:.4} waited, of {}",
        it.hops as f64 / it.count as f64,
        it.most,
        it.waits as f64 / it.count as f64,
        it.count
    )
}

#[cfg(test)]
mod tests {
    use super::*;

    const PLAIN: Options = Options {
        routers: 30,
        loss: 0.01,
        requests: 20,
        to_all: true,
        turn_back: None,
        fault: None,
        seed: 7,
    };
    const TURNED: Options = Options { turn_back: Some(0.5), ..PLAIN };

    fn run(options: Options) -> Outcome {
        World::new(options).unwrap().run().unwrap()
    }

    #[test]
    fn words_are_read() {
        let read = |words: &str| read(&words.split(' ').map(String::from).collect::<Vec<_>>());
        let (options, counts) = read("--seed 5 100 --loss 0.3 --requests 2 1000").unwrap();
        assert_eq!((options.seed, options.loss, options.requests), (5, 0.3, 2));
        assert_eq!((options.turn_back, options.fault), (None, None));
        assert_eq!(counts, [100, 1000]);
        let (options, counts) = read("--turn-back 0.25 --fault short").unwrap();
        assert_eq!((options.turn_back, options.fault), (Some(0.25), Some(Fault::Short)));
        assert_eq!(counts, [1000]);
        for (words, why) in [
            ("--seed", "--seed needs a value"),
            ("--seed x", "--seed x: not between 0 and"),
            ("--loss 0.9", "--loss 0.9: not from 0 on"),
            ("--loss NaN", "--loss NaN: not from 0 on"),
            ("--turn-back 1", "--turn-back 1: not from 0 on, below 1"),
            ("--fault close", "--fault close: not open, early"),
            ("--requests 0", "--requests 0: not between 1 and"),
            ("2", "ROUTERS 2: not between 3 and"),
            ("many", "ROUTERS many: not between 3 and"),
            ("--helpless", "--helpless is not known"),
        ] {
            let said = read(words).err().unwrap();
            assert!(said.starts_with(why), "{said}");
        }
    }

    #[test]
    fn all_agree() {
        for (loss, to_all) in [(0.0, true), (0.01, true), (0.3, true), (0.01, false)] {
            for turn_back in [None, Some(0.0), Some(0.5), Some(0.99)] {
                let it = run(Options { loss, to_all, turn_back, ..PLAIN });
                assert_eq!(it.agreed.len(), 30);
                assert!(it.agreed.iter().all(|&time| time < 60 * SECOND));
                assert_eq!(it.courses.len(), if turn_back.is_some() { 2 } else { 1 });
                assert!(it.courses.iter().flatten().all(|&time| time < 60 * SECOND));
            }
        }
    }

    #[test]
    fn a_seed_tells_all() {
        for options in [PLAIN, TURNED] {
            let (one, other) = (run(options), run(options));
            assert_eq!(text(30, true, &one), text(30, true, &other));
        }
    }

    #[test]
    fn those_that_hear_are_redirected_less() {
        for (options, known) in [(PLAIN, 0.0..0.5), (TURNED, 0.5..1.0)] {
            let it = run(options);
            assert_eq!(it.squall.count, it.by_slot.count);
            assert!(it.squall.hops < it.by_table.hops && it.by_table.hops < it.by_slot.hops);
            // A request that follows a course to its end asks one more.
            assert_eq!((it.squall.most, it.most), (1, 1));
            assert!(known.contains(&it.known_slots));
        }
    }

    #[test]
    fn faults_are_noticed() {
        for (name, fault) in Fault::ALL {
            for seed in 1..6 {
                let world = World::new(Options { fault: Some(fault), seed, ..TURNED }).unwrap();
                assert!(world.run().is_err(), "{name}, seed {seed}");
            }
        }
    }

    #[test]
    fn routers_that_come_to_no_end_are_noticed() {
        let world = World::new(Options { loss: 0.5, to_all: false, ..PLAIN }).unwrap();
        assert_eq!(world.run().err().unwrap().why, failure::Why::Apart { routers: 30 });
    }
}
