//! Files as they are opened: by name, or standard input where the name is `-`.

use crate::status::Failure;
use std::ffi::OsStr;
use std::fs::File;
use std::io::{self, Read, Seek, SeekFrom};
use std::os::unix::fs::MetadataExt;
use zarfolin::table::limit::MAX_DEFINITION;

/// Which file of the machine it is: names may differ, this does not.
#[derive(Clone, Copy, Debug, PartialEq, Eq)]
pub struct FileId(pub u64, pub u64);

/// A file that is read.
pub struct Input {
    /// Its name, for messages.
    pub name: String,
    /// Its length, where it has one that holds.
    pub size: Option<u64>,
    /// Which it is, where it is a file.
    pub id: Option<FileId>,
    file: Option<File>,
    /// How much of it is read at most: a part.
    most: u64,
}

impl Input {
    pub fn open(path: &OsStr) -> Result<Input, Failure> {
        if path == "-" {
            return Ok(Input { name: "standard input".into(), size: None, id: None, file: None, most: u64::MAX });
        }
        let name = path.to_string_lossy().into_owned();
        let opened = File::open(path).and_then(|file| Ok((file.metadata()?, file)));
        let (data, file) = opened.map_err(|error| Failure::input(&name, &error))?;
        let whole = data.is_file();
        let id = whole.then(|| FileId(data.dev(), data.ino()));
        Ok(Input { name, size: whole.then_some(data.len()), id, file: Some(file), most: u64::MAX })
    }

    /// Fills the room as far as the input goes: less than all of it is the end.
    pub fn fill(&mut self, room: &mut [u8]) -> Result<usize, Failure> {
        let mut got = 0;
        let most = usize::try_from(self.most).unwrap_or(usize::MAX).min(room.len());
        let room = &mut room[..most];
        while got < room.len() {
            let read = match &mut self.file {
                Some(file) => file.read(&mut room[got..]),
                None => io::stdin().lock().read(&mut room[got..]),
            };
            match read {
                Ok(0) => break,
                Ok(n) => got += n,
                Err(error) if error.kind() == io::ErrorKind::Interrupted => {}
                Err(error) => return Err(Failure::input(&self.name, &error)),
            }
        }
        self.most -= got as u64;
        Ok(got)
    }

    /// Goes on from a place of the file, for at most so many bytes.
    pub fn part(&mut self, place: u64, most: u64) -> Result<(), Failure> {
        self.most = most;
        let moved = match &mut self.file {
            Some(file) => file.seek(SeekFrom::Start(place)).map(|_| ()),
            None => Err(io::Error::from_raw_os_error(29)), // ESPIPE
        };
        moved.map_err(|error| Failure::input(&self.name, &error))
    }

    /// At most so many bytes of it.
    pub fn up_to(&mut self, most: usize) -> Result<Vec<u8>, Failure> {
        let mut bytes = vec![0; 1 << 16];
        let mut held = 0;
        loop {
            held += self.fill(&mut bytes[held..])?;
            if held < bytes.len() || held >= most {
                bytes.truncate(held.min(most));
                return Ok(bytes);
            }
            bytes.resize(2 * held, 0);
        }
    }
}

/// The text of a definition. Of one that is too long (refusal 1, by its length alone) one byte too many is enough.
pub fn definition(path: &OsStr) -> Result<(Input, Vec<u8>), Failure> {
    let mut input = Input::open(path)?;
    let text = input.up_to(MAX_DEFINITION + 1)?;
    Ok((input, text))
}

/// Standard input can be read once.
pub fn one_standard_input(words: &[&OsStr]) -> Result<(), Failure> {
    match words.iter().filter(|word| **word == "-").count() {
        0 | 1 => Ok(()),
        _ => Err(Failure::Usage("only one file can be standard input".into())),
    }
}

#[cfg(test)]
impl Input {
    /// A file of these bytes, which has no name any more.
    pub fn of(bytes: &[u8]) -> Input {
        use std::sync::atomic::{AtomicU64, Ordering};
        static COUNT: AtomicU64 = AtomicU64::new(0);
        let own = format!("zarfolin-test-{}-{}", std::process::id(), COUNT.fetch_add(1, Ordering::Relaxed));
        let path = std::env::temp_dir().join(own);
        std::fs::write(&path, bytes).unwrap();
        let input = Input::open(path.as_os_str()).unwrap();
        std::fs::remove_file(path).unwrap();
        input
    }
}
