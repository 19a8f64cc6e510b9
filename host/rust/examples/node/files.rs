//! The files of a node, in a folder that one node at a time holds.
//!
//! | file | what it is |
//! |---|---|
//! | `stakes` | the committee; without it, the course committee |
//! | `store.N`, `table.N` | what the engine holds |
//! | `current` | which N counts, with a checksum of the stakes and of both files |
//! | `waiting` | records that wait for one that they include |
//! | `epoch`, `closed`, `share-again` | see `epoch.rs` |
//! | `lock` | locked while a node runs |
//!
//! A new state is written beside the old one and synced; then `current` is replaced by a rename, which happens as a whole or not at all.
//! So the two are always of one moment. Only then is the old state removed: nothing is before a state was opened and a new one kept.

use std::error::Error;
use std::fs::{self, File, TryLockError};
use std::io::{self, Write};
use std::path::{Path, PathBuf};

use lomkhvide::{Committee, Engine, Parts, Refusal};

/// The bytes of the store that the engine is lent.
pub const ROOM: usize = 16 << 20;

/// What is kept of an engine. An earlier node also kept an index, which is many times as long as the store; it goes with the old state.
const PARTS: [&str; 2] = ["store", "table"];
const NUMBERED: [&str; 3] = ["store", "table", "index"];

pub type Told<T> = Result<T, Box<dyn Error>>;

/// What became of a file, with its name where that is an error.
pub fn at<T>(path: &Path, done: io::Result<T>) -> Told<T> {
    done.map_err(|error| format!("{}: {error}", path.display()).into())
}

/// The bytes of a file that need not be there.
pub fn read_if_there(path: &Path) -> Told<Option<Vec<u8>>> {
    match fs::read(path) {
        Err(error) if error.kind() == io::ErrorKind::NotFound => Ok(None),
        read => at(path, read).map(Some),
    }
}

/// Replaces a file as a whole: it is written beside and synced, and then it is renamed.
pub fn replace(folder: &Path, name: &str, bytes: &[u8]) -> Told<()> {
    let (path, beside) = (folder.join(name), folder.join(format!("{name}.new")));
    write_synced(&beside, bytes)?;
    at(&path, fs::rename(&beside, &path))?;
    at(folder, File::open(folder).and_then(|folder| folder.sync_all()))
}

fn write_synced(path: &Path, bytes: &[u8]) -> Told<()> {
    let written = File::create(path).and_then(|mut file| file.write_all(bytes).and_then(|_| file.sync_all()));
    at(path, written)
}

/// A checksum: each step can be undone, so any change within eight bytes shows, and others but by chance. It does not keep out who makes
/// one on purpose.
pub fn checksum(bytes: &[u8]) -> u64 {
    let step = |sum: u64, word: u64| {
        let sum = (sum ^ word).wrapping_mul(0x9e37_79b9_7f4a_7c15);
        sum ^ sum >> 32
    };
    let (words, rest) = bytes.as_chunks();
    let sum = words.iter().fold(bytes.len() as u64, |sum, word| step(sum, u64::from_le_bytes(*word)));
    step(rest.iter().fold(sum, |sum, byte| step(sum, *byte as u64)), 1)
}

/// The file `current`: the state that counts, 0 where none was kept yet, and the checksums of the stakes and of the state's two files. An
/// earlier node wrote the number alone.
#[derive(Debug, PartialEq)]
struct Current {
    number: u64,
    sums: Option<[u64; 3]>,
}

impl Current {
    fn read(bytes: &[u8]) -> Option<Current> {
        let text = str::from_utf8(bytes).ok()?;
        let mut words = text.split_whitespace();
        let number = words.next()?.parse().ok()?;
        let mut sums = Vec::new();
        for name in ["stakes"].iter().chain(&PARTS) {
            let Some(word) = words.next() else { break };
            sums.push(u64::from_str_radix(words.next().filter(|_| word == *name)?, 16).ok()?);
        }
        let current = Current { number, sums: sums.try_into().ok() };
        // One spelling of each, so that no change of a byte goes by.
        let right = match &current.sums {
            Some(sums) => text == current.text() && (number > 0 || *sums == [0; 3]),
            None => number > 0 && text.trim_end() == number.to_string(),
        };
        right.then_some(current)
    }

    fn text(&self) -> String {
        let mut text = format!("{}\n", self.number);
        for (name, sum) in ["stakes"].iter().chain(&PARTS).zip(self.sums.unwrap_or_default()) {
            text += &format!("{name} {sum:016x}\n");
        }
        text
    }
}

/// Whether a node that only reads holds the folder.
#[derive(Clone, Copy, PartialEq)]
pub enum Access {
    Write,
    Read,
}

/// The files of a node that holds its folder.
pub struct Files {
    pub folder: PathBuf,
    current: Current,
    /// The lock is given back when this is dropped, or when the process ends, however it ends.
    _lock: Option<File>,
}

impl Files {
    /// Takes hold of a folder, which a node that writes makes where there is none.
    pub fn hold(folder: &Path, access: Access) -> Told<Files> {
        if access == Access::Write {
            at(folder, fs::create_dir_all(folder))?;
        }
        let lock = lock(folder, access)?;
        Ok(Files { folder: folder.to_path_buf(), current: Current { number: 0, sums: None }, _lock: lock })
    }

    /// Takes hold of a folder and sees which state counts; a new folder is begun. Nothing is removed.
    pub fn open(folder: &Path, access: Access) -> Told<Files> {
        let mut files = Files::hold(folder, access)?;
        match read_if_there(&folder.join("current"))? {
            Some(bytes) => files.current = Current::read(&bytes).ok_or_else(|| files.misfit("it is damaged"))?,
            None if !files.numbered()?.is_empty() => return Err(files.misfit("it is missing")),
            None if folder.join("epoch").exists() => {
                return Err(format!("{}: this epoch was not begun to its end; run node --epoch again", folder.display()).into());
            }
            None if access == Access::Read => return Err(format!("{}: no node's folder", folder.display()).into()),
            None => files.begin()?,
        }
        let later = |(number, _): &(u64, PathBuf)| *number > files.current.number + 1;
        if files.numbered()?.iter().any(later) {
            return Err(files.misfit(&format!("it says {}, and there are later ones", files.current.number)));
        }
        Ok(files)
    }

    /// Whether a node began here, or left state files.
    pub fn is_begun(&self) -> Told<bool> {
        Ok(self.folder.join("current").exists() || !self.numbered()?.is_empty())
    }

    /// Says in a folder that nothing was kept yet. From then on `current` is always there, and state files without it are a fault.
    pub fn begin(&mut self) -> Told<()> {
        let current = Current { number: 0, sums: Some([0; 3]) };
        replace(&self.folder, "current", current.text().as_bytes())?;
        self.current = current;
        Ok(())
    }

    pub fn committee(&self) -> Told<Committee> {
        let path = self.folder.join("stakes");
        let stakes = read_if_there(&path)?.unwrap_or_default();
        Committee::load(&stakes).map_err(|refusal| format!("{}: {refusal}", path.display()).into())
    }

    fn path(&self, part: &str, number: u64) -> PathBuf {
        self.folder.join(format!("{part}.{number}"))
    }

    /// The files of states, whichever counts.
    fn numbered(&self) -> Told<Vec<(u64, PathBuf)>> {
        let mut found = Vec::new();
        for entry in at(&self.folder, fs::read_dir(&self.folder))? {
            let path = at(&self.folder, entry)?.path();
            let number = path.extension().and_then(|number| number.to_str()?.parse().ok());
            let ours = path.file_stem().is_some_and(|name| NUMBERED.iter().any(|part| *part == name));
            found.extend(number.filter(|_| ours).map(|number| (number, path.clone())));
        }
        found.sort();
        Ok(found)
    }

    /// A `current` that does not fit the state files, with their names.
    fn misfit(&self, why: &str) -> Box<dyn Error> {
        let names: Vec<String> = match self.numbered() {
            Ok(files) => files.iter().map(|(_, path)| path.display().to_string()).collect(),
            Err(error) => return error,
        };
        let names = if names.is_empty() { "none".to_string() } else { names.join(", ") };
        let path = self.folder.join("current");
        format!("{}: {why}; nothing was changed. State files that are there: {names}", path.display()).into()
    }

    /// The engine as it was kept, or a fresh one.
    pub fn engine(&self) -> Told<Engine> {
        let committee = self.committee()?;
        let number = self.current.number;
        if number == 0 {
            return Ok(Engine::new(committee, ROOM));
        }
        match &self.current.sums {
            Some(sums) if sums[0] != checksum(committee.stakes()) => {
                let stakes = self.folder.join("stakes");
                return Err(self.misfit(&format!("the state was kept under another committee than {} has", stakes.display())));
            }
            Some(_) => (),
            None => eprintln!("{}: no checksums, as an earlier node wrote it", self.folder.join("current").display()),
        }
        let read = |i: usize| -> Told<Vec<u8>> {
            let path = self.path(PARTS[i], number);
            let bytes = read_if_there(&path)?.ok_or_else(|| self.misfit(&format!("it says {number}")))?;
            match &self.current.sums {
                Some(sums) if sums[i + 1] != checksum(&bytes) => {
                    Err(self.misfit(&format!("{} is not the file that was kept", path.display())))
                }
                _ => Ok(bytes),
            }
        };
        let (store, table) = (read(0)?, read(1)?);
        Engine::open(committee, ROOM, Parts { store: &store, table: &table, index: None }).map_err(|refusal| {
            let part = if refusal == Refusal::TableNotInOrder { "table" } else { "store" };
            format!("{}: {refusal}", self.path(part, number).display()).into()
        })
    }

    /// Keeps the engine: the new state counts from the rename on, and then the old one goes.
    pub fn keep(&mut self, engine: &Engine) -> Told<()> {
        let next = self.current.number + 1;
        let Parts { store, table, .. } = engine.parts();
        write_synced(&self.path("store", next), store)?;
        write_synced(&self.path("table", next), table)?;
        let sums = [engine.committee().stakes(), store, table].map(checksum);
        let current = Current { number: next, sums: Some(sums) };
        replace(&self.folder, "current", current.text().as_bytes())?;
        self.current = current;
        for (number, path) in self.numbered()? {
            if number != next {
                at(&path, fs::remove_file(&path))?;
            }
        }
        Ok(())
    }
}

/// Locks the folder, so that no two nodes write it. Who only reads needs no lock where none was ever made.
fn lock(folder: &Path, access: Access) -> Told<Option<File>> {
    let path = folder.join("lock");
    let file = match access {
        Access::Write => at(&path, File::options().write(true).create(true).truncate(false).open(&path))?,
        Access::Read if !path.exists() => return Ok(None),
        Access::Read => at(&path, File::open(&path))?,
    };
    match file.try_lock() {
        Ok(()) => Ok(Some(file)),
        Err(TryLockError::WouldBlock) => Err(format!("{}: another node holds this folder", path.display()).into()),
        Err(TryLockError::Error(error)) => at(&path, Err(error)),
    }
}
