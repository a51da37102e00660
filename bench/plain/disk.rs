// A disk: its image file, and the sidecar that says whether it spins.
use std::fs::{self, File, OpenOptions};
use std::io::{self, Write};
use std::os::unix::fs::FileExt;

pub const BLOCK_SIZE: usize = 512;
const MOST_WAITING: usize = 128 * BLOCK_SIZE;
const MAX_SIDECAR: u64 = 64;

static ZEROS: [u8; MOST_WAITING] = [0; MOST_WAITING];

pub type Block = [u8; BLOCK_SIZE];

pub fn xor(to: &mut Block, from: &Block) {
    for (a, b) in to.iter_mut().zip(from) {
        *a ^= b;
    }
}

pub struct Disk {
    slot: usize,
    file: File,
    pub blocks: u64,
    pub spins: bool,
    // Whether it was written since it was synced.
    pub is_loose: bool,
    // What is to be written by one call from place `first` on: blocks that follow one another. It is read
    // by nothing: what waits is synced first, or is a copy that does not count yet.
    first: u32,
    waiting: Vec<u8>,
}

impl Disk {
    // The disk of a slot, if there is one. What a killed process wrote may be in the system's memory alone.
    pub fn load(slot: usize) -> io::Result<Option<Disk>> {
        let Some(spins) = spins(&format!("disk-{slot}.power"))? else {
            return Ok(None);
        };
        let name = format!("disk-{slot}.img");
        match fs::metadata(&name) {
            Ok(found) if found.is_file() => {}
            _ => return Ok(None),
        }
        let file = OpenOptions::new().read(true).write(true).open(name)?;
        let blocks = file.metadata()?.len() / BLOCK_SIZE as u64;
        if spins {
            file.sync_data()?;
        }
        Ok(Some(Disk::new(slot, file, blocks, spins)))
    }

    // A new disk of zeros. Until its image is whole, the sidecar tells of none.
    pub fn attach(slot: usize, blocks: u32) -> io::Result<Disk> {
        store_power(slot, b"failed\n")?;
        let name = format!("disk-{slot}.img");
        let file = OpenOptions::new().read(true).write(true).create(true).truncate(true).open(name)?;
        let size = blocks as usize * BLOCK_SIZE;
        for at in (0..size).step_by(ZEROS.len()) {
            file.write_all_at(&ZEROS[..ZEROS.len().min(size - at)], at as u64)?;
        }
        file.sync_all()?;
        store_power(slot, b"spinning\n")?;
        Ok(Disk::new(slot, file, blocks.into(), true))
    }

    fn new(slot: usize, file: File, blocks: u64, spins: bool) -> Disk {
        Disk { slot, file, blocks, spins, is_loose: false, first: 0, waiting: Vec::with_capacity(MOST_WAITING) }
    }

    pub fn read(&self, place: u32, block: &mut Block) -> io::Result<()> {
        self.file.read_exact_at(block, u64::from(place) * BLOCK_SIZE as u64)
    }

    pub fn write(&mut self, place: u32, block: &Block) -> io::Result<()> {
        let next = self.first as usize + self.waiting.len() / BLOCK_SIZE;
        if place as usize != next || self.waiting.len() == MOST_WAITING {
            self.write_out()?;
        }
        if self.waiting.is_empty() {
            self.first = place;
        }
        self.waiting.extend_from_slice(block);
        self.is_loose = true;
        Ok(())
    }

    fn write_out(&mut self) -> io::Result<()> {
        if !self.waiting.is_empty() {
            self.file.write_all_at(&self.waiting, u64::from(self.first) * BLOCK_SIZE as u64)?;
            self.waiting.clear();
        }
        Ok(())
    }

    pub fn sync(&mut self) -> io::Result<()> {
        self.write_out()?;
        self.is_loose = false;
        self.file.sync_data()
    }

    pub fn park(&mut self) -> io::Result<()> {
        self.spins = false;
        store_power(self.slot, b"parked\n")
    }

    pub fn spin_up(&mut self) -> io::Result<()> {
        self.spins = true;
        store_power(self.slot, b"spinning\n")
    }
}

// Whether a sidecar says that its disk spins, as a missing one does, or is parked. Another one tells of no disk.
fn spins(name: &str) -> io::Result<Option<bool>> {
    match fs::metadata(name) {
        Ok(found) if found.is_file() => {}
        Ok(_) => return Ok(None),
        Err(error) if error.kind() == io::ErrorKind::NotFound => return Ok(Some(true)),
        Err(error) => return Err(error),
    }
    let file = File::open(name)?;
    file.sync_data()?;
    let length = file.metadata()?.len();
    if length > MAX_SIDECAR {
        return Ok(None);
    }
    let mut text = vec![0; length as usize];
    file.read_exact_at(&mut text, 0)?;
    Ok(match text.trim_ascii_end() {
        b"spinning" => Some(true),
        b"parked" => Some(false),
        _ => None,
    })
}

// Replaces a sidecar, so that a stop leaves the old text or this one.
fn store_power(slot: usize, text: &[u8]) -> io::Result<()> {
    let next = format!("disk-{slot}.power.next");
    let mut file = File::create(&next)?;
    file.write_all(text)?;
    file.sync_all()?;
    fs::rename(next, format!("disk-{slot}.power"))?;
    sync_folder()
}

// When it returns, the names of the folder are on the disk.
pub fn sync_folder() -> io::Result<()> {
    File::open(".")?.sync_all()
}
