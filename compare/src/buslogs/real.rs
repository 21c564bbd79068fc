//! The logs of `examples/buslogs`, which real tools wrote, with what real tools read of every line.

use std::fs;
use std::path::{Path, PathBuf};

use second::Cursor;
use second::cases::buslogs::MOST_ROOM;
use second::cases::prng::Prng;

use crate::differ::buslogs::AskedLog;

pub struct Real {
    pub name: String,
    pub log: Vec<u8>,
    /// What python-can and can-utils read, a line for each line of the log.
    pub frames: String,
    /// The interfaces that can-utils read, in order.
    pub interfaces: Vec<String>,
}

impl Real {
    pub fn folder() -> PathBuf {
        Path::new(env!("CARGO_MANIFEST_DIR")).join("../examples/buslogs")
    }

    /// All that the examples have.
    pub fn all() -> Result<Vec<Self>, String> {
        Real::all_of(&Real::folder())
    }

    pub fn all_of(folder: &Path) -> Result<Vec<Self>, String> {
        let tell = |why: std::io::Error| format!("cannot read {}: {why}", folder.display());
        let paths =
            fs::read_dir(folder).map_err(tell)?.map(|entry| Ok(entry.map_err(tell)?.path()));
        let mut paths: Vec<PathBuf> = paths.collect::<Result<_, String>>()?;
        paths.retain(|path| path.extension().is_some_and(|kind| kind == "log"));
        paths.sort();
        if paths.is_empty() {
            return Err(format!("{} has no log", folder.display()));
        }
        paths.iter().map(|path| Real::of(path)).collect()
    }

    fn of(path: &Path) -> Result<Self, String> {
        let tell =
            |why: std::io::Error| format!("cannot read {} or its frames: {why}", path.display());
        let log = fs::read(path).map_err(tell)?;
        let frames = fs::read_to_string(path.with_extension("frames")).map_err(tell)?;
        let interface = |line: &str| line.split(' ').nth(7).unwrap_or_default().to_string();
        let mut interfaces: Vec<String> = frames.lines().map(interface).collect();
        interfaces.sort();
        interfaces.dedup();
        let name = path.file_name().unwrap_or_default().to_string_lossy().into_owned();
        Ok(Real { name, log, frames, interfaces })
    }

    pub fn lines(&self) -> Vec<&[u8]> {
        self.log.split_inclusive(|&byte| byte == b'\n').collect()
    }

    /// The interfaces as a list.
    pub fn list(&self) -> Vec<u8> {
        self.interfaces.iter().flat_map(|name| [name.as_bytes(), b"\n"].concat()).collect()
    }

    /// Some lines of one of them, with a few bytes changed, lost, added or exchanged, or lines in another order.
    pub fn damaged(all: &[Real], rng: &mut Prng) -> AskedLog {
        let real = &all[rng.below(all.len())];
        let mut lines = real.lines();
        let from = rng.below(lines.len());
        lines = lines[from..lines.len().min(from + 1 + rng.below(12))].to_vec();
        if rng.chance(15) {
            let (a, b) = (rng.below(lines.len()), rng.below(lines.len()));
            lines.swap(a, b);
        }
        let (mut log, mut interfaces) = (lines.concat(), real.list());
        for _ in 0..rng.below(3) {
            damage(&mut log, rng);
        }
        if rng.chance(5) {
            damage(&mut interfaces, rng);
        }
        let room = rng.pick(&[0, 1, 7, 60, MOST_ROOM, MOST_ROOM]);
        let table = networks(real.interfaces.len());
        AskedLog { table, interfaces, log, from: Cursor::default(), room }
    }
}

/// A byte changed, lost, added, or exchanged with its neighbour.
fn damage(text: &mut Vec<u8>, rng: &mut Prng) {
    let at = rng.below(text.len().max(1));
    let byte =
        if rng.chance(80) { rng.pick(b"0123456789aAfFgG()#. \n\r") } else { rng.word() as u8 };
    match rng.below(4) {
        0 => text.insert(at, byte),
        1 if at < text.len() => drop(text.remove(at)),
        2 if at + 1 < text.len() => text.swap(at, at + 1),
        _ if at < text.len() => text[at] = byte,
        _ => {}
    }
}

/// A table of so many networks, network n with a port n + 1 of its own, owned by operator n + 1; its one rule is operator 1's.
pub fn networks(count: usize) -> Vec<u32> {
    let count = count as u32;
    let ports = (1..=count).map(|owner| 0x2000_0000 | owner << 24);
    let both = |owner: u32| [owner << 28 | owner << 20 | 0x2000, 0x030A_0005];
    [0x0100_0000 | (count + 1) << 16 | count << 8, 0x0001_0001, 0x0001_0001, 0x0100_0000]
        .into_iter()
        .chain(ports)
        .chain((1..=count).flat_map(both))
        .chain([0x0000_5000, 0x1000_00FF, 0x1838_0001, 0x0000_1234])
        .collect()
}

#[cfg(test)]
mod tests {
    use super::*;

    #[test]
    fn its_tables_are_accepted_and_their_networks_have_owners_of_their_own() {
        for count in 0..=8 {
            let table = networks(count);
            let check = second::check(&table);
            assert_eq!((check.reason, check.place), (0, 0), "{count} networks");
            let list: Vec<u8> = (0..count).flat_map(|n| format!("can{n}\n").into_bytes()).collect();
            let log: Vec<u8> = (0..count)
                .flat_map(|n| format!("(1.000000) can{n} 20000040#\n").into_bytes())
                .collect();
            let given = second::convert(&table, &list, &log, Cursor::default(), 8).events;
            let due = (0..count as u32).map(|n| 0x5000_0000 | (n + 1) << 24 | n << 16);
            assert_eq!(given, due.collect::<Vec<_>>());
        }
    }
}
