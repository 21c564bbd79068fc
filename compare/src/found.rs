//! `compare fixed`: what the second program's fixed cases ask, with their panels,
//! suppliers' recordings, listings, bus logs and these four's programs, and the cases
//! that a hunt has found, through both sides.

use std::collections::BTreeSet;
use std::fs::{self, File};
use std::io::BufReader;
use std::path::{Path, PathBuf};

use second::cases::Case;
use second::program::words;
use second::stream::{case_words, read_case, write_words};
use second::testing::{
    AskedBusLogRun, AskedHoldRun, AskedListingRun, AskedPanelRun, Ran, run_fixed,
};

use crate::differ::buslogs::{AskedLog, Logs, compare_log};
use crate::differ::holds::{Recorded, compare_hold};
use crate::differ::listings::{Asked, Listings, compare_rooms};
use crate::differ::panels::{Shown, compare_panel};
use crate::differ::{Compared, Difference, compare};
use crate::generated::{told, told_hold, told_log, told_panel};
use crate::nearest::Nearest;
use crate::panel::by_library;
use crate::subject::Proved;
use crate::verdicts::Verdicts;
use crate::{canlog, hold, listing, listings};

/// Where found cases are kept: in the source, for they are fixed cases.
pub fn folder() -> PathBuf {
    Path::new(env!("CARGO_MANIFEST_DIR")).join("found")
}

/// What the fixed cases have shown: what they ask, their own recordings and those that the comparison makes of what they ask, and how
/// many panels there were and runs of the programs.
#[derive(Default)]
struct Met {
    seen: BTreeSet<Vec<u32>>,
    nearest: Nearest,
    asked_for: Verdicts,
    verdicts: Verdicts,
    listings: Listings,
    logs: Logs,
    panels: usize,
    panel_runs: usize,
    hold_runs: usize,
    listing_runs: usize,
    log_runs: usize,
}

pub fn fixed() -> Result<(), String> {
    // A case that fails is told with its name, not by its panic.
    std::panic::set_hook(Box::new(|_| {}));
    let ran = run_fixed();
    let mut met = Met::default();
    ran.iter().try_for_each(|case| met.compare(case))?;
    let found = replay(&folder())?;
    let Met { seen, nearest, asked_for, verdicts, listings, logs, .. } = &met;
    let Met { panels, panel_runs, hold_runs, listing_runs, log_runs, .. } = &met;
    let (fixed, asked) = (ran.len(), seen.len());
    println!("{fixed} fixed cases asked {asked} things: no difference\n{nearest}");
    println!("{panels} panels and {panel_runs} runs of the panel's program: no difference");
    println!("what they ask to be held, {asked_for}");
    println!("{hold_runs} logs held by their program: no difference\nthe cases asked, {verdicts}");
    println!("{listings}: no difference");
    println!("{listing_runs} files listed or read by their programs: no difference");
    println!("{logs}: no difference\n{log_runs} bus logs by their programs: no difference");
    println!("{found} found cases: no difference");
    listings.all_met()?;
    logs.all_met()?;
    verdicts.all_met()
}

impl Met {
    /// Everything that a case asks, through both sides; what it asks as another did only once.
    fn compare(&mut self, case: &Ran) -> Result<(), String> {
        let wrong = |what: String| format!("fixed case {}: {what}", case.name);
        case.outcome.clone().map_err(wrong)?;
        for asked in &case.asked {
            if self.seen.insert(case_words(asked)) {
                let Compared { visited, held, .. } =
                    compare(&Proved, asked).map_err(|_| told(case.name, asked))?;
                self.nearest.meet(visited, || case.name.into());
                self.verdicts += held;
            }
        }
        for shown in case.panels.iter().map(Shown::recorded) {
            compare_panel(&Proved, &shown).map_err(|_| told_panel(&Proved, case.name, &shown))?;
        }
        for recorded in case.holds.iter().map(Recorded::of_fixed) {
            let verdict = compare_hold(&Proved, &recorded)
                .map_err(|_| told_hold(&Proved, case.name, &recorded))?;
            self.asked_for.meet(verdict);
        }
        self.listings += compare_listings(case)
            .map_err(|difference| listings::told(&Proved, case.name, difference))?;
        case.panel_runs.iter().try_for_each(compare_panel_run).map_err(wrong)?;
        case.hold_runs.iter().try_for_each(compare_hold_run).map_err(wrong)?;
        case.listing_runs.iter().try_for_each(compare_listing_run).map_err(wrong)?;
        for asked in case.bus_logs.iter().cloned().map(AskedLog::from) {
            self.logs +=
                compare_log(&Proved, &asked).map_err(|_| told_log(&Proved, case.name, &asked))?;
        }
        case.bus_log_runs.iter().try_for_each(compare_bus_log_run).map_err(wrong)?;
        self.panels += case.panels.len();
        self.panel_runs += case.panel_runs.len();
        self.hold_runs += case.hold_runs.len();
        self.listing_runs += case.listing_runs.len();
        self.log_runs += case.bus_log_runs.len();
        Ok(())
    }
}

/// The tables that a case listed and the texts that it read, as they were lent, and in other rooms; and the texts that its programs read.
fn compare_listings(case: &Ran) -> Result<Listings, Difference> {
    let lists = case
        .lists
        .iter()
        .map(|asked| Asked::List { table: asked.table.clone(), room: asked.lent.clone() });
    let reads = case
        .reads
        .iter()
        .map(|asked| Asked::Read { text: asked.text.clone(), room: asked.lent.clone() });
    let files = case.listing_runs.iter().filter(|run| !run.lists);
    let files = files.map(|run| Asked::read(&run.file, 0));
    let mut met = Listings::default();
    for asked in lists.chain(reads).chain(files) {
        met += compare_rooms(&Proved, &asked)?;
    }
    Ok(met)
}

/// What a listing's program told over the second program's rules, over the library.
fn compare_listing_run(run: &AskedListingRun) -> Result<(), String> {
    let proved = if run.lists { listing::list(&run.file) } else { listing::read(&run.file) };
    if proved == run.told {
        return Ok(());
    }
    Err(format!("differs: {run:?}\n  proved: {proved:?}"))
}

/// What a bus log's program told over the second program's rules, over the library.
fn compare_bus_log_run(run: &AskedBusLogRun) -> Result<(), String> {
    let proved = canlog::told(run.plays, &run.table, &run.interfaces, &run.log);
    if proved == run.told {
        return Ok(());
    }
    Err(format!("differs: {run:?}\n  proved: {proved:?}"))
}

/// What the log's program told over the second program's rules, over the library.
fn compare_hold_run(run: &AskedHoldRun) -> Result<(), String> {
    let proved = hold::by_library(&run.table, &run.events, &run.log, run.all);
    if proved == run.told {
        return Ok(());
    }
    Err(format!("differs: {run:?}\n  proved: {proved:?}"))
}

/// What the panel's program printed over the second program's rules, over the library.
fn compare_panel_run(run: &AskedPanelRun) -> Result<(), String> {
    let (table, events) = (words(&run.table), words(&run.events));
    let proved = by_library(run.operator, &table, &events, run.follow);
    if proved == run.printed {
        return Ok(());
    }
    Err(format!("differs: {run:?}\n  proved: {proved:?}"))
}

/// Every case file of the folder; gives how many cases there were.
fn replay(folder: &Path) -> Result<usize, String> {
    let tell = |why: std::io::Error| format!("cannot read {}: {why}", folder.display());
    let mut cases = 0;
    for entry in fs::read_dir(folder).map_err(tell)? {
        let path = entry.map_err(tell)?.path();
        if path.extension().is_none_or(|kind| kind != "case") {
            continue;
        }
        let mut input = BufReader::new(File::open(&path).map_err(tell)?);
        while let Some(case) = read_case(&mut input).map_err(tell)? {
            cases += 1;
            compare(&Proved, &case).map_err(|_| told(&path.display().to_string(), &case))?;
        }
    }
    Ok(cases)
}

/// Adds a case to the folder.
pub fn keep(name: &str, case: &Case) -> Result<PathBuf, String> {
    let path = folder().join(name).with_extension("case");
    let mut bytes = vec![];
    write_words(&mut bytes, &case_words(case))
        .and_then(|()| fs::write(&path, bytes))
        .map_err(|why| format!("cannot write {}: {why}", path.display()))?;
    Ok(path)
}
