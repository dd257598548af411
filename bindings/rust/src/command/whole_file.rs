//! A file that appears whole or not at all: it is written under another name in the same folder, and gets its own at the end.

use crate::failure::Failure;
use std::ffi::OsStr;
use std::fs::{self, File, OpenOptions};
use std::io::{self, BufWriter, Seek, SeekFrom, Write};
use std::path::{Path, PathBuf};

pub struct WholeFile {
    path: PathBuf,
    part: PathBuf,
    overwrite: bool,
    writer: BufWriter<File>,
}

impl WholeFile {
    /// Nothing stands at `path` until it is finished. Only `overwrite` lets it take the place of a file.
    pub fn create(path: &OsStr, overwrite: bool) -> Result<WholeFile, Failure> {
        let path = target(Path::new(path), overwrite)?;
        let part = part_name(&path);
        let file = OpenOptions::new().write(true).create_new(true).open(&part);
        let writer = BufWriter::new(file.map_err(|error| cannot_write(&path, error))?);
        Ok(WholeFile { path, part, overwrite, writer })
    }

    pub fn put(&mut self, bytes: &[u8]) -> Result<(), Failure> {
        self.writer.write_all(bytes).map_err(|error| cannot_write(&self.path, error))
    }

    /// Writes over bytes that were put before.
    pub fn put_at(&mut self, at: u64, bytes: &[u8]) -> Result<(), Failure> {
        let sought = self.writer.seek(SeekFrom::Start(at)).map(|_| ());
        sought.map_err(|error| cannot_write(&self.path, error))?;
        self.put(bytes)
    }

    /// Once all bytes are on the disk the file gets its name.
    pub fn finish(mut self) -> Result<(), Failure> {
        let written = self.writer.flush().and_then(|()| self.writer.get_ref().sync_all());
        written.map_err(|error| cannot_write(&self.path, error))?;
        target(&self.path, self.overwrite)?;
        fs::rename(&self.part, &self.path).map_err(|error| cannot_write(&self.path, error))
    }
}

/// What was not finished goes. Once it is, nothing has that name any more.
impl Drop for WholeFile {
    fn drop(&mut self) {
        let _ = fs::remove_file(&self.part);
    }
}

/// Where the file will stand: behind a link, what it points to. What is there already is left alone unless it is a file that
/// may be overwritten.
fn target(path: &Path, overwrite: bool) -> Result<PathBuf, Failure> {
    let name = path.to_string_lossy();
    match fs::symlink_metadata(path) {
        Err(error) if error.kind() == io::ErrorKind::NotFound => return Ok(path.to_path_buf()),
        Err(error) => return Err(cannot_write(path, error)),
        Ok(_) if !overwrite => {
            return Err(Failure::Usage(format!("{name} is there already: --force overwrites it")));
        }
        Ok(_) => {}
    }
    let path = fs::canonicalize(path).map_err(|error| cannot_write(path, error))?;
    if !path.is_file() {
        return Err(Failure::Usage(format!("{name} is no file that could be overwritten")));
    }
    Ok(path)
}

fn part_name(path: &Path) -> PathBuf {
    let mut name = OsStr::new(".").to_os_string();
    name.push(path.file_name().unwrap_or_default());
    name.push(format!(".{}.part", std::process::id()));
    path.with_file_name(name)
}

fn cannot_write(path: &Path, error: io::Error) -> Failure {
    Failure::Output(io::Error::new(error.kind(), format!("{}: {error}", path.display())))
}
