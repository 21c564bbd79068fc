//! The proved code, as linked from its library, beside the second program.

mod bench;
mod buslogs;
mod canlog;
mod differ;
mod found;
mod generated;
mod hold;
mod hunt;
mod kind;
mod listing;
mod listings;
mod long;
mod nearest;
mod pairs;
mod panel;
mod programs;
mod rows;
mod shrink;
mod subject;
mod verdicts;
mod yardstick;

use std::process::ExitCode;

const USAGE: &str = "usage: compare cases SEED COUNT [SEED COUNT ...]
       compare pairs SEED COUNT [SEED COUNT ...]
       compare listings SEED COUNT [SEED COUNT ...]
       compare buslogs SEED COUNT [SEED COUNT ...]
       compare recorded DIR
       compare fixed
       compare hunt SECONDS
       compare run TABLE EVENTS [OUTCOMES]
       compare play TABLE EVENTS
       compare cost TABLE EVENTS
       compare panel OPERATOR TABLE EVENTS [--follow]
       compare hold TABLE EVENTS LOG [--all]
       compare list TABLE
       compare read LISTING
       compare canlog TABLE INTERFACES LOG
       compare day TABLE INTERFACES LOG
       compare programs run|play|cost|panel|hold|list|read|canlog|day DIR COUNT SEED PROGRAM...
       compare long run|play|cost|panel|hold DIR PROGRAM...
       compare whole-day DIR PROGRAM...
       compare bench
       compare bench-listings
       compare bench-buslogs
       compare bench-programs PROGRAM...
       compare bench-day PROGRAM...
       compare bench-hold PROGRAM...
       compare bench-canlog PROGRAM...";

unsafe extern "C" {
    fn signal(number: i32, action: usize) -> usize;
}

/// Rust starts with the signal of a closed pipe ignored, and a print into one then panics. This has it end the program quietly.
fn end_quietly_in_a_closed_pipe() {
    const SIGPIPE: i32 = 13;
    const DEFAULT: usize = 0;
    // SAFETY: C's signal; the number and the action are Linux's on every machine that this is built for.
    unsafe { signal(SIGPIPE, DEFAULT) };
}

fn main() -> ExitCode {
    let args: Vec<String> = std::env::args().skip(1).collect();
    let args: Vec<&str> = args.iter().map(String::as_str).collect();
    // Their status is 0 in a closed pipe, which that of a program ended by a signal is not.
    match args[..] {
        ["panel", ref words @ ..] => return panel::panel(words, USAGE),
        ["list", table] => return listing::tell(table, listing::list),
        ["read", text] => return listing::tell(text, listing::read),
        [command @ ("canlog" | "day"), ref files @ ..] => {
            return canlog::tell(command == "day", files, USAGE);
        }
        _ => {}
    }
    end_quietly_in_a_closed_pipe();
    if let ["hold", ref words @ ..] = args[..] {
        return hold::hold(words, USAGE);
    }
    let done = match args[..] {
        ["cases", ref pairs @ ..] if !pairs.is_empty() => generated::cases(pairs),
        ["pairs", ref pairs @ ..] if !pairs.is_empty() => pairs::pairs(pairs),
        ["listings", ref pairs @ ..] if !pairs.is_empty() => listings::listings(pairs),
        ["buslogs", ref pairs @ ..] if !pairs.is_empty() => buslogs::buslogs(pairs),
        ["recorded", folder] => buslogs::recorded(folder),
        ["fixed"] => found::fixed(),
        ["hunt", seconds] => hunt::hunt(seconds),
        ["run", table, events] => programs::run(table, events, None),
        ["run", table, events, outcomes] => programs::run(table, events, Some(outcomes)),
        ["play", table, events] => programs::play(table, events),
        ["cost", table, events] => programs::cost(table, events),
        [
            "programs",
            kind @ (listings::LISTER | listings::READER),
            folder,
            count,
            seed,
            ref program @ ..,
        ] if !program.is_empty() => listings::programs(kind, folder, count, seed, program),
        [
            "programs",
            kind @ (buslogs::CANLOG | buslogs::DAY),
            folder,
            count,
            seed,
            ref program @ ..,
        ] if !program.is_empty() => buslogs::programs(kind, folder, count, seed, program),
        ["programs", kind, folder, count, seed, ref program @ ..] if !program.is_empty() => {
            programs::programs(kind, folder, count, seed, program)
        }
        ["long", kind, folder, ref program @ ..] if !program.is_empty() => {
            long::long(kind, folder, program)
        }
        ["whole-day", folder, ref program @ ..] if !program.is_empty() => {
            bench::day(folder, program)
        }
        ["bench"] => bench::bench(),
        ["bench-listings"] => bench::bench_listings(),
        ["bench-buslogs"] => bench::bench_buslogs(),
        ["bench-programs", ref program @ ..] if !program.is_empty() => bench::programs(program),
        ["bench-day", ref program @ ..] if !program.is_empty() => bench::bench_day(program),
        ["bench-hold", ref program @ ..] if !program.is_empty() => bench::bench_hold(program),
        ["bench-canlog", ref program @ ..] if !program.is_empty() => bench::bench_canlog(program),
        _ => {
            eprintln!("{USAGE}");
            return ExitCode::from(2);
        }
    };
    match done {
        Ok(()) => ExitCode::SUCCESS,
        Err(message) => {
            eprintln!("compare: {message}");
            // as the programs that these stand in for: a file cannot be read
            let trouble = matches!(args[0], "run" | "play" | "cost");
            if trouble { ExitCode::from(2) } else { ExitCode::FAILURE }
        }
    }
}

/// A number off the command line.
fn number<N: std::str::FromStr>(text: &str) -> Result<N, String> {
    text.parse().map_err(|_| format!("not a number: {text}"))
}
