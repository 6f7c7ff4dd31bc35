//! Sectors in memory and in a file.

use std::fs::{File, OpenOptions};
use std::io;
use std::os::unix::fs::FileExt;
use std::path::Path;

pub const SECTOR: usize = 512;
pub type Sector = [u8; SECTOR];

pub trait Device {
    fn sectors(&self) -> u64;
    fn read(&mut self, at: u64, into: &mut Sector) -> io::Result<()>;
    fn write(&mut self, at: u64, from: &Sector) -> io::Result<()>;
    fn sync(&mut self) -> io::Result<()>;
}

pub struct MemoryDevice {
    sectors: Vec<Sector>,
}

impl MemoryDevice {
    pub fn new(sectors: u64) -> MemoryDevice {
        MemoryDevice { sectors: vec![[0; SECTOR]; sectors as usize] }
    }
}

impl Device for MemoryDevice {
    fn sectors(&self) -> u64 {
        self.sectors.len() as u64
    }

    fn read(&mut self, at: u64, into: &mut Sector) -> io::Result<()> {
        *into = self.sectors[at as usize];
        Ok(())
    }

    fn write(&mut self, at: u64, from: &Sector) -> io::Result<()> {
        self.sectors[at as usize] = *from;
        Ok(())
    }

    fn sync(&mut self) -> io::Result<()> {
        Ok(())
    }
}

/// How many sectors are read, or grown by, in one call.
const SPAN: usize = 256;

/// How many of them stand before the one that was asked for, since callers go a step back at times.
const BEFORE: u64 = 8;

pub struct FileDevice {
    file: File,
    sectors: u64,
    buffer: Vec<Sector>,
    first: u64,
    held: usize,
    broken: bool,
}

impl FileDevice {
    /// Opens the file, and makes and grows it where it has fewer sectors than these.
    pub fn open(path: &Path, sectors: u64) -> io::Result<FileDevice> {
        let file = OpenOptions::new().read(true).write(true).create(true).truncate(false).open(path)?;
        let buffer = vec![[0; SECTOR]; SPAN];
        file.try_lock()?;
        let found = whole_sectors(&file)?;
        grow(&file, found, sectors, &buffer)?;
        file.sync_all()?;
        sync_folder(path)?;
        Ok(FileDevice { file, sectors: found.max(sectors), buffer, first: 0, held: 0, broken: false })
    }

    // After a failed sync the system may have dropped what was written, and report nothing more.
    fn ready(&self) -> io::Result<()> {
        if self.broken {
            return Err(io::Error::other("an earlier sync failed"));
        }
        Ok(())
    }

    fn holds(&self, at: u64) -> bool {
        at >= self.first && at - self.first < self.held as u64
    }

    fn fill(&mut self, at: u64) -> io::Result<()> {
        self.held = 0;
        let first = at.saturating_sub(BEFORE);
        let count = (self.sectors - first).min(SPAN as u64) as usize;
        self.file.read_exact_at(self.buffer[..count].as_flattened_mut(), place_of(first))?;
        self.first = first;
        self.held = count;
        Ok(())
    }
}

impl Device for FileDevice {
    fn sectors(&self) -> u64 {
        self.sectors
    }

    fn read(&mut self, at: u64, into: &mut Sector) -> io::Result<()> {
        self.ready()?;
        if !self.holds(at) && self.fill(at).is_err() {
            return self.file.read_exact_at(into, place_of(at));
        }
        *into = self.buffer[(at - self.first) as usize];
        Ok(())
    }

    fn write(&mut self, at: u64, from: &Sector) -> io::Result<()> {
        self.ready()?;
        let outcome = self.file.write_all_at(from, place_of(at));
        if outcome.is_err() || self.holds(at) {
            self.held = 0;
        }
        outcome
    }

    fn sync(&mut self) -> io::Result<()> {
        self.ready()?;
        let outcome = self.file.sync_data();
        self.broken = outcome.is_err();
        outcome
    }
}

fn place_of(sector: u64) -> u64 {
    sector * SECTOR as u64
}

fn whole_sectors(file: &File) -> io::Result<u64> {
    let metadata = file.metadata()?;
    if !metadata.is_file() || metadata.len() % SECTOR as u64 != 0 {
        return Err(io::Error::other("no file of whole sectors"));
    }
    Ok(metadata.len() / SECTOR as u64)
}

// Writes zero sectors behind the first `from` ones, until there are `to` of them.
fn grow(file: &File, from: u64, to: u64, zeros: &[Sector]) -> io::Result<()> {
    let mut at = from;
    while at < to {
        let count = (to - at).min(zeros.len() as u64);
        file.set_len(place_of(at + count))?;
        file.write_all_at(zeros[..count as usize].as_flattened(), place_of(at))?;
        at += count;
    }
    Ok(())
}

// Makes the file's name in its folder durable.
fn sync_folder(path: &Path) -> io::Result<()> {
    let folder = match path.parent() {
        Some(folder) if !folder.as_os_str().is_empty() => folder,
        _ => Path::new("."),
    };
    File::open(folder)?.sync_all()
}
