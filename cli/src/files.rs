//! Files that are read whole, and written whole or not at all.

use crate::exit::{Failure, say};
use std::collections::HashMap;
use std::fs::{self, File};
use std::io::{self, Read, Write};
use std::os::unix::fs::{DirBuilderExt, MetadataExt};
use std::path::{Path, PathBuf};
use std::sync::atomic::{AtomicBool, Ordering};

/// The bytes that a file may have: the longest table has 22,644, and its text some hundred thousand.
const LONGEST: u64 = 1 << 24;

/// Whether standard input was read: it can be read once.
static TAKEN: AtomicBool = AtomicBool::new(false);

/// Whether a name stands for standard input or output.
pub fn is_stream(path: &Path) -> bool {
    path == Path::new("-")
}

/// Whether one of some outputs is standard output. No two can go to one place.
pub fn one_streams<const OUTS: usize>(outs: [Option<&Path>; OUTS]) -> Result<bool, Failure> {
    let place = |path: &Path| fs::canonicalize(path).or_else(|_| std::path::absolute(path)).unwrap_or_else(|_| path.to_path_buf());
    let mut taken = std::collections::HashSet::new();
    match outs.into_iter().flatten().find(|path| !taken.insert(place(path))) {
        Some(twice) => Err(Failure::Wrong(format!("two outputs cannot both go to {}", twice.display()), None)),
        None => Ok(outs.into_iter().flatten().any(is_stream)),
    }
}

/// The bytes of a file or, for `-`, of standard input.
pub fn read(path: &Path) -> Result<Vec<u8>, Failure> {
    let fail = |error: io::Error| Failure::File(format!("{} cannot be read ({error})", path.display()));
    let mut bytes = Vec::new();
    if is_stream(path) {
        if TAKEN.swap(true, Ordering::Relaxed) {
            return Err(Failure::Wrong("standard input is named twice".into(), None));
        }
        io::stdin().lock().take(LONGEST + 1).read_to_end(&mut bytes).map_err(fail)?;
    } else {
        File::open(path).map_err(fail)?.take(LONGEST + 1).read_to_end(&mut bytes).map_err(fail)?;
    }
    if bytes.len() as u64 > LONGEST {
        return Err(Failure::File(format!("{} has over {LONGEST} bytes", path.display())));
    }
    Ok(bytes)
}

/// The files that a command reads, which it does not write to.
#[derive(Default)]
pub struct Spared(HashMap<(u64, u64), PathBuf>);

impl Spared {
    /// These files.
    pub fn of<'a>(read: impl IntoIterator<Item = &'a Path>) -> Spared {
        let known = |path: &Path| fs::metadata(path).ok().map(|file| ((file.dev(), file.ino()), path.to_path_buf()));
        Spared(read.into_iter().filter(|path| !is_stream(path)).filter_map(known).collect())
    }

    /// Writes a file whole or not at all, or, for `-`, to standard output; never over a file that is read.
    pub fn write(&self, out: &Path, bytes: &[u8]) -> Result<(), Failure> {
        if is_stream(out) {
            return say(bytes);
        }
        let fail = |error: io::Error| Failure::File(format!("{} cannot be written ({error})", out.display()));
        match fs::metadata(out) {
            Ok(there) if there.is_file() => {
                if let Some(path) = self.0.get(&(there.dev(), there.ino())) {
                    return Err(Failure::File(format!("{} is not written: it is {}, which is read", out.display(), path.display())));
                }
                File::options().write(true).open(out).map_err(fail)?;
                let file = fs::canonicalize(out).map_err(fail)?;
                replace(&file, bytes, Some(there.permissions())).map_err(fail)
            }
            Ok(_) => File::options().write(true).open(out).and_then(|mut there| there.write_all(bytes)).map_err(fail),
            Err(_) => replace(&led_to(out), bytes, None).map_err(fail),
        }
    }
}

/// Where a link leads whose file is not there yet; any other path is its own.
fn led_to(path: &Path) -> PathBuf {
    let mut at = path.to_path_buf();
    // as many links in a row as the system follows
    for _ in 0..40 {
        match fs::read_link(&at) {
            Ok(next) => at = at.parent().unwrap_or(Path::new("")).join(next),
            Err(_) => break,
        }
    }
    at
}

/// Writes a file beside its place and then moves it there.
fn replace(out: &Path, bytes: &[u8], permissions: Option<fs::Permissions>) -> io::Result<()> {
    let name = out.file_name().ok_or_else(|| io::Error::other("it has no name"))?;
    let mut part = std::ffi::OsString::from(".");
    part.push(name);
    part.push(format!(".{}.part", std::process::id()));
    let part = out.with_file_name(part);
    let put = || {
        let mut file = File::options().write(true).create_new(true).open(&part)?;
        file.write_all(bytes)?;
        if let Some(permissions) = permissions {
            file.set_permissions(permissions)?;
        }
        fs::rename(&part, out)
    };
    put().inspect_err(|error| {
        if error.kind() != io::ErrorKind::AlreadyExists {
            let _ = fs::remove_file(&part);
        }
    })
}

/// A folder of its own, which is removed with all that is in it.
pub struct Temporary(PathBuf);

impl Temporary {
    /// A new one where the system has such folders.
    pub fn new() -> io::Result<Temporary> {
        let names = (0..1000).map(|k| std::env::temp_dir().join(format!("basilvault.{}.{k}", std::process::id())));
        for path in names {
            match fs::DirBuilder::new().mode(0o700).create(&path) {
                Err(error) if error.kind() == io::ErrorKind::AlreadyExists => {}
                done => return done.map(|()| Temporary(path)),
            }
        }
        Err(io::Error::other("no name is free for a temporary folder"))
    }

    /// Where it is.
    pub fn path(&self) -> &Path {
        &self.0
    }
}

impl Drop for Temporary {
    fn drop(&mut self) {
        let _ = fs::remove_dir_all(&self.0);
    }
}

/// Whether a file is there and was written after another one.
pub fn is_newer(file: &Path, other: &Path) -> bool {
    let written = |path: &Path| fs::metadata(path).ok().filter(fs::Metadata::is_file).and_then(|file| file.modified().ok());
    matches!((written(file), written(other)), (Some(later), Some(earlier)) if later > earlier)
}

/// Makes a folder where there is none.
pub fn folder(path: &Path) -> Result<(), Failure> {
    fs::create_dir_all(path).map_err(|error| Failure::File(format!("the folder {} cannot be made ({error})", path.display())))
}

/// The files that are named; in place of a folder those in it that end in `.bin` or `.txt`, by their names.
pub fn tables_in<'a>(named: impl IntoIterator<Item = &'a Path>) -> Result<Vec<PathBuf>, Failure> {
    let mut files = Vec::new();
    for path in named {
        if is_stream(path) || !path.is_dir() {
            files.push(path.to_path_buf());
            continue;
        }
        let fail = |error: io::Error| Failure::File(format!("{} cannot be read ({error})", path.display()));
        let mut inside = Vec::new();
        for entry in fs::read_dir(path).map_err(fail)? {
            let file = entry.map_err(fail)?.path();
            let table = file.extension().is_some_and(|ending| ending == "bin" || ending == "txt");
            inside.extend((table && file.is_file()).then_some(file));
        }
        if inside.is_empty() {
            return Err(Failure::File(format!("the folder {} has no file that ends in .bin or .txt", path.display())));
        }
        inside.sort_unstable();
        files.extend(inside);
    }
    Ok(files)
}

/// Where the tables of these files go in a folder: under their own names, a text's with `.bin`. No two may go to one place.
pub fn places(folder: &Path, files: &[&Path]) -> Result<Vec<PathBuf>, Failure> {
    let mut places: Vec<PathBuf> = Vec::with_capacity(files.len());
    let mut taken = HashMap::new();
    for file in files {
        let name = file.file_name().filter(|_| !is_stream(file));
        let Some(name) = name else {
            return Err(Failure::Wrong(format!("{} has no name to be written to a folder under", file.display()), None));
        };
        let mut place = folder.join(name);
        if place.extension().is_some_and(|extension| extension == "txt" || extension == "ats") {
            place.set_extension("bin");
        }
        if let Some(other) = taken.insert(place.clone(), file) {
            return Err(Failure::Wrong(format!("{} and {} would both be written to {}", other.display(), file.display(), place.display()), None));
        }
        places.push(place);
    }
    Ok(places)
}
