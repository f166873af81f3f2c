//! A file that is written: whole, or not at all. It is written beside its place under another name, brought to the disk, and then takes
//! its place in one step: whoever is killed at any time leaves the old file as it was. An input is never overwritten unasked.

use crate::input::{FileId, Input};
use crate::status::{Failure, reason};
use std::ffi::{OsStr, OsString};
use std::fs::{self, File, OpenOptions};
use std::io::{self, BufWriter, Write};
use std::os::unix::fs::MetadataExt;
use std::path::{Path, PathBuf};

/// Where the bytes go.
enum Way {
    /// Standard output, a device, a pipe: nothing can take their place.
    Straight,
    /// The file under its other name, and the place that it takes.
    Beside { temporary: PathBuf, place: PathBuf },
}

pub struct Output {
    name: String,
    way: Way,
    writer: Option<BufWriter<Box<dyn Write>>>,
    /// For the disk: what the writer writes to.
    file: Option<File>,
}

impl Output {
    /// Opens `-o OUT`, which may be none of the inputs.
    pub fn create(to: &OsStr, inputs: &[&Input]) -> Result<Output, Failure> {
        if to == "-" {
            let out = Box::new(io::stdout());
            return Ok(Output::straight("standard output".into(), out, None));
        }
        let name = to.to_string_lossy().into_owned();
        let found = fs::metadata(to).ok();
        let id = found.as_ref().map(|data| FileId(data.dev(), data.ino()));
        if let Some(input) = inputs.iter().find(|input| input.id.is_some() && input.id == id) {
            return Err(Failure::Usage(format!("{name} is an input, {}: name another file", input.name)));
        }
        match found {
            Some(data) if data.is_dir() => Err(Failure::Create(format!("{name}: Is a directory"))),
            Some(data) if !data.is_file() => {
                let opened = OpenOptions::new().write(true).open(to).and_then(|file| Ok((file.try_clone()?, file)));
                let (file, out) = opened.map_err(|error| Failure::Create(format!("{name}: {}", reason(&error))))?;
                Ok(Output::straight(name, Box::new(out), Some(file)))
            }
            found => Output::beside(name, to, found),
        }
    }

    /// Opens the input's own place, for `--in-place`.
    pub fn in_place(path: &OsStr) -> Result<Output, Failure> {
        let name = path.to_string_lossy().into_owned();
        match fs::metadata(path) {
            Ok(data) if data.is_file() => Output::beside(name, path, Some(data)),
            _ => Err(Failure::Usage(format!("--in-place: {name} is no file"))),
        }
    }

    fn straight(name: String, out: Box<dyn Write>, file: Option<File>) -> Output {
        Output { name, way: Way::Straight, writer: Some(BufWriter::with_capacity(1 << 16, out)), file }
    }

    /// A file that keeps the rights of the one that it takes the place of. A link stays one: what it names is replaced.
    fn beside(name: String, to: &OsStr, found: Option<fs::Metadata>) -> Result<Output, Failure> {
        let refused = |error: io::Error| Failure::Create(format!("{name}: {}", reason(&error)));
        let place = if found.is_some() { fs::canonicalize(to).map_err(refused)? } else { PathBuf::from(to) };
        let (temporary, file) = fresh(&place).map_err(refused)?;
        let way = Way::Beside { temporary, place };
        let mut output = Output { name: name.clone(), way, writer: None, file: None };
        if let Some(data) = found {
            file.set_permissions(data.permissions()).map_err(refused)?;
        }
        let out: Box<dyn Write> = Box::new(file.try_clone().map_err(refused)?);
        output.writer = Some(BufWriter::with_capacity(1 << 16, out));
        output.file = Some(file);
        Ok(output)
    }

    pub fn write(&mut self, bytes: &[u8]) -> Result<(), Failure> {
        let written = self.writer.as_mut().map_or(Ok(()), |writer| writer.write_all(bytes));
        written.map_err(|error| Failure::output(&self.name, &error))
    }

    /// All is written: the file takes its place.
    pub fn commit(mut self) -> Result<(), Failure> {
        let written = match self.writer.take() {
            Some(mut writer) => writer.flush(),
            None => Ok(()),
        };
        let placed = written.and_then(|()| match (&self.way, &self.file) {
            (Way::Beside { temporary, place }, Some(file)) => {
                file.sync_all()?;
                fs::rename(temporary, place)?;
                File::open(folder(place))?.sync_all()
            }
            _ => Ok(()),
        });
        placed.map_err(|error| Failure::output(&self.name, &error))
    }
}

/// What did not come to its end leaves nothing behind. (After its end the name is gone, and nothing is removed.)
impl Drop for Output {
    fn drop(&mut self) {
        // What the writer still holds is not wanted: parted from it, it is not written.
        let _ = self.writer.take().map(BufWriter::into_parts);
        if let Way::Beside { temporary, .. } = &self.way {
            let _ = fs::remove_file(temporary);
        }
    }
}

fn folder(place: &Path) -> &Path {
    place.parent().filter(|folder| !folder.as_os_str().is_empty()).unwrap_or(Path::new("."))
}

/// A new file in the same folder: `.NAME.zarfolin-PROCESS-COUNT`.
fn fresh(place: &Path) -> io::Result<(PathBuf, File)> {
    let name = place.file_name().ok_or_else(|| io::Error::from_raw_os_error(21))?; // EISDIR
    for count in 0.. {
        let mut own = OsString::from(".");
        own.push(name);
        own.push(format!(".zarfolin-{}-{count}", std::process::id()));
        let path = folder(place).join(own);
        match OpenOptions::new().write(true).create_new(true).open(&path) {
            Err(error) if error.kind() == io::ErrorKind::AlreadyExists => {}
            opened => return opened.map(|file| (path, file)),
        }
    }
    unreachable!("some count is free")
}
