//! Records as they come: the files of a folder, or a stream.

use std::fs;
use std::io::{self, BufRead, BufReader, Read};
use std::path::{Path, PathBuf};

use crate::files::{Told, at};

/// The longest record that the format has: a header with a time, 256 includes, 1,024 shares.
const LONGEST_FORM: u64 = 72 + 256 * 48 + 1024 * 65_538;

pub enum Input {
    /// The files that are left.
    Folder(std::vec::IntoIter<PathBuf>),
    /// Records, each after its length (4 bytes).
    Stream(BufReader<Box<dyn Read>>),
}

impl Input {
    /// The files of a folder, by name.
    pub fn folder(folder: &Path) -> Told<Input> {
        let entries = at(folder, fs::read_dir(folder))?.map(|entry| Ok(entry?.path()));
        let mut paths = at(folder, entries.collect::<io::Result<Vec<PathBuf>>>())?;
        paths.sort();
        Ok(Input::Folder(paths.into_iter()))
    }

    pub fn stream(stream: impl Read + 'static) -> Input {
        Input::Stream(BufReader::with_capacity(1 << 20, Box::new(stream)))
    }

    /// The next record, and the file that it comes from.
    pub fn next(&mut self) -> Told<Option<(Option<PathBuf>, Vec<u8>)>> {
        match self {
            Input::Folder(paths) => match paths.next() {
                Some(path) => at(&path, fs::read(&path)).map(|bytes| Some((Some(path.clone()), bytes))),
                None => Ok(None),
            },
            Input::Stream(stream) => Ok(next_of(stream)?.map(|bytes| (None, bytes))),
        }
    }

    /// Whether the next record is not there yet: the time to keep what came so far.
    pub fn pauses(&self) -> bool {
        match self {
            Input::Folder(_) => false,
            Input::Stream(stream) => match stream.buffer().split_first_chunk() {
                Some((length, rest)) => rest.len() < u32::from_le_bytes(*length) as usize,
                None => true,
            },
        }
    }
}

/// The next record of a stream, or none at its end.
fn next_of(stream: &mut impl BufRead) -> Told<Option<Vec<u8>>> {
    let here = Path::new("standard input");
    if at(here, stream.fill_buf())?.is_empty() {
        return Ok(None);
    }
    let length = exactly(stream, 4)?;
    let length = u32::from_le_bytes([length[0], length[1], length[2], length[3]]) as u64;
    if length > LONGEST_FORM {
        return Err(format!("standard input: a record of {length} bytes, and {LONGEST_FORM} is the most").into());
    }
    exactly(stream, length).map(Some)
}

fn exactly(stream: &mut impl BufRead, length: u64) -> Told<Vec<u8>> {
    let mut bytes = Vec::new();
    at(Path::new("standard input"), stream.take(length).read_to_end(&mut bytes))?;
    if (bytes.len() as u64) < length {
        return Err(format!("standard input: cut inside a record, {} bytes of {length}", bytes.len()).into());
    }
    Ok(bytes)
}
