//! Files written whole or not at all: under a temporary name in the same folder, then renamed. A file that is
//! replaced leaves its mode and its owner to the new one.

use crate::progress::Stage;
use crate::signals::Hold;
use std::fs::{self, File, Metadata, OpenOptions};
use std::io::{self, ErrorKind, Write};
use std::os::unix::fs::{fchown, MetadataExt};
use std::path::{Path, PathBuf};

/// A place where a file can be put.
pub struct Place {
    /// Where it lies: links are followed.
    path: PathBuf,
    /// The ordinary file that is there.
    replaced: Option<Metadata>,
    force: bool,
}

/// Bytes written between two looks for a signal.
const CHUNK: usize = 1 << 20;

impl Place {
    /// The place of that name, if its folder takes new files and what is there, if anything, is an ordinary
    /// file that may be written; with `force` it need not be writable.
    pub fn new(path: &Path, force: bool) -> io::Result<Self> {
        let place = Place::named(path, force)?;
        place.begin().and_then(Begun::cancel)?;
        Ok(place)
    }

    fn named(path: &Path, force: bool) -> io::Result<Self> {
        if !fs::metadata(folder_of(path))?.is_dir() {
            return Err(io::Error::new(ErrorKind::NotADirectory, "its folder is no folder"));
        }
        let (path, replaced) = match fs::metadata(path) {
            Ok(found) => (fs::canonicalize(path)?, Some(found)),
            Err(error) if error.kind() != ErrorKind::NotFound => return Err(error),
            Err(_) if path.is_symlink() => {
                return Err(io::Error::other("it is a link to a file that is not there"));
            }
            Err(error) if path.file_name().is_none() => return Err(error),
            Err(_) => (path.to_path_buf(), None),
        };
        let place = Place { path, replaced, force };
        place.check_replaced()?;
        Ok(place)
    }

    fn check_replaced(&self) -> io::Result<()> {
        let Some(found) = &self.replaced else {
            return Ok(());
        };
        if !found.is_file() {
            return Err(io::Error::other("it is there and is no ordinary file"));
        }
        let opens = OpenOptions::new().append(true).open(&self.path).is_ok();
        match self.force || (opens && !found.permissions().readonly()) {
            true => Ok(()),
            false => {
                Err(io::Error::other("it is there and may not be written (--force replaces it)"))
            }
        }
    }

    /// Whether the file there is this one, under whatever name.
    pub fn holds(&self, file: &Path) -> bool {
        let this = |found: &Metadata| (found.dev(), found.ino());
        match (&self.replaced, fs::metadata(file)) {
            (Some(there), Ok(found)) => this(there) == this(&found),
            _ => false,
        }
    }

    /// A new file beside the place, under a name that no file has.
    fn begin(&self) -> io::Result<Begun<'_>> {
        let hold = Hold::begin();
        let process = std::process::id();
        let mut attempt = 0;
        loop {
            let name = format!(".sporeferry-{process}-{attempt}.tmp");
            let temporary = folder_of(&self.path).join(name);
            match OpenOptions::new().write(true).create_new(true).open(&temporary) {
                Err(error) if error.kind() == ErrorKind::AlreadyExists && attempt < 100 => {
                    attempt += 1;
                }
                opened => return Ok(Begun { file: opened?, temporary, place: self, hold }),
            }
        }
    }
}

/// Writes each place's bytes, in place of a file that is there. On failure what was there still is, and nothing else is
/// left; only a failure between two renamings leaves the first file renamed.
pub fn write_whole(files: &[(&Place, &[u8])]) -> io::Result<()> {
    let _hold = Hold::begin();
    let total = files.iter().map(|(_, bytes)| bytes.len()).sum();
    let stage = Stage::counted("writing", total);
    let mut begun = Vec::new();
    for (place, bytes) in files {
        begun.push(place.begin()?.filled(bytes, &stage)?);
    }
    begun.into_iter().try_for_each(Begun::finish)
}

/// A file under its temporary name. It is removed with the value, unless it was finished; until then signals wait.
struct Begun<'a> {
    file: File,
    temporary: PathBuf,
    place: &'a Place,
    hold: Hold,
}

impl Begun<'_> {
    fn filled(mut self, bytes: &[u8], stage: &Stage) -> io::Result<Self> {
        for chunk in bytes.chunks(CHUNK) {
            self.hold.check()?;
            self.file.write_all(chunk)?;
            stage.advance(chunk.len());
        }
        self.file.sync_all()?;
        if let Some(found) = &self.place.replaced {
            self.take_after(found)?;
        }
        self.hold.check()?;
        Ok(self)
    }

    /// Gives it the mode and the owner of the file it replaces.
    fn take_after(&self, found: &Metadata) -> io::Result<()> {
        let own = self.file.metadata()?;
        if (own.uid(), own.gid()) != (found.uid(), found.gid()) {
            let kept = fchown(&self.file, Some(found.uid()), Some(found.gid()));
            if kept.is_err() && !self.place.force {
                return Err(io::Error::other(
                    "it is there and its owner could not be kept (--force replaces it)",
                ));
            }
        }
        self.file.set_permissions(found.permissions())
    }

    fn finish(self) -> io::Result<()> {
        fs::rename(&self.temporary, &self.place.path)
    }

    fn cancel(self) -> io::Result<()> {
        fs::remove_file(&self.temporary)
    }
}

impl Drop for Begun<'_> {
    fn drop(&mut self) {
        let _ = fs::remove_file(&self.temporary);
    }
}

fn folder_of(path: &Path) -> &Path {
    match path.parent() {
        Some(folder) if !folder.as_os_str().is_empty() => folder,
        _ => Path::new("."),
    }
}
