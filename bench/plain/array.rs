// The array: it is mounted, and its cells are read, also where a disk is out.
use crate::commit::{Batch, Target};
use crate::disk::{sync_folder, xor, Block, Disk, BLOCK_SIZE};
use crate::gears::Window;
use crate::meta::{Layout, Meta, GATE, MAP, META, SLOTS};
use std::io;

pub struct Array {
    pub disks: Vec<Disk>,
    pub meta: Meta,
    pub layout: Layout,
    // For each row which of its cells have their newest bytes in their copy alone, a bit for each disk.
    pub dirty: Vec<u8>,
    // The old values of the cells of a row on which more than its parity depends.
    pub kept: Vec<Block>,
    pub batch: Batch,
    // The disk that the last commit named out.
    pub named: Option<usize>,
    pub windows: Vec<Window>,
    // The reads and writes since the last tick.
    pub served: u32,
    // The millijoules used since the mount.
    pub energy: u64,
}

fn refused(why: &str) -> io::Error {
    io::Error::other(why)
}

// Refuses a log disk whose gate is open.
fn check_gate(disk: &Disk) -> io::Result<()> {
    let mut block = [0; BLOCK_SIZE];
    disk.read(GATE, &mut block)?;
    if block[0] != 0 {
        return Err(refused("a commit was cut short"));
    }
    Ok(())
}

// What a log disk says under a closed gate.
fn hear(disk: &Disk) -> io::Result<Block> {
    check_gate(disk)?;
    let mut block = [0; BLOCK_SIZE];
    disk.read(META, &mut block)?;
    Ok(block)
}

// What both log disks say.
fn hear_both(slots: &[Option<Disk>]) -> io::Result<Meta> {
    let [Some(first), Some(second), ..] = slots else {
        return Err(refused("a log disk is missing"));
    };
    let said = hear(first)?;
    if hear(second)? != said {
        return Err(refused("the log disks differ"));
    }
    Meta::read(said).ok_or_else(|| refused("there is no array of mode whole, in no shift and with all disks"))
}

fn check_disks(disks: &[Disk], gear: usize, layout: &Layout) -> io::Result<()> {
    if disks[..gear].iter().any(|disk| !disk.spins) {
        return Err(refused("a disk does not spin"));
    }
    if disks.iter().any(|disk| disk.blocks < layout.size.into()) {
        return Err(refused("a disk is too small"));
    }
    Ok(())
}

fn read_map(disk: &Disk, layout: &Layout) -> io::Result<Vec<u8>> {
    let mut dirty = vec![0; (layout.first - MAP) as usize * BLOCK_SIZE];
    for (place, block) in (MAP..).zip(dirty.as_chunks_mut().0) {
        disk.read(place, block)?;
    }
    Ok(dirty)
}

impl Array {
    pub fn mount() -> io::Result<Array> {
        sync_folder()?;
        let slots: Vec<Option<Disk>> = (0..SLOTS).map(Disk::load).collect::<io::Result<_>>()?;
        let meta = hear_both(&slots)?;
        let disks: Option<Vec<Disk>> = slots.into_iter().take(meta.setup.disks).collect();
        let disks = disks.ok_or_else(|| refused("a disk is missing"))?;
        let layout = Layout::new(&meta.setup);
        check_disks(&disks, meta.gear, &layout)?;
        // The proved program looks at this gate once more as it ends what a stop cut short.
        check_gate(&disks[1])?;
        let dirty = read_map(&disks[0], &layout)?;
        let kept = vec![[0; BLOCK_SIZE]; meta.setup.disks];
        let windows = meta.setup.windows.iter().map(|&length| Window::new(length)).collect();
        let batch = Batch::new();
        let mut array = Array { disks, meta, layout, dirty, kept, batch, named: None, windows, served: 0, energy: 0 };
        array.power_disks()?;
        Ok(array)
    }

    // A stop may have come before a write was synced, or before a disk was parked.
    fn power_disks(&mut self) -> io::Result<()> {
        let (spinning, parked) = self.disks.split_at_mut(self.meta.gear);
        spinning.iter_mut().try_for_each(Disk::sync)?;
        parked.iter_mut().filter(|disk| disk.spins).try_for_each(Disk::park)
    }

    pub fn is_dirty(&self, row: u32, disk: usize) -> bool {
        self.dirty[row as usize] >> disk & 1 == 1
    }

    // How many cells of the disks that the gear does not need are dirty.
    pub fn count_dirty(&self) -> u32 {
        self.dirty.iter().map(|&bits| (u32::from(bits) >> self.meta.gear).count_ones()).sum()
    }

    // Whether the newest bytes of a cell are in its place, and not in its copy.
    pub fn is_hard(&self, row: u32, disk: usize) -> bool {
        disk < self.meta.gear || disk < self.meta.rising() && !self.is_dirty(row, disk)
    }

    pub fn place(&self, row: u32, disk: usize) -> Target {
        Target { disk, place: self.layout.first + row }
    }

    // Where the newest bytes of a cell are.
    pub fn spot(&self, row: u32, disk: usize) -> Target {
        if self.is_hard(row, disk) {
            return self.place(row, disk);
        }
        let (stripe, copy) = self.layout.copy(self.meta.gear, row, disk);
        Target { disk: copy, place: stripe.place }
    }

    // The bytes of a cell, which are staged, or are read or made in the room given.
    pub fn value<'a>(&'a self, row: u32, disk: usize, room: &'a mut Block) -> io::Result<&'a Block> {
        let spot = self.spot(row, disk);
        if self.meta.out.is(spot.disk) {
            self.make(row, disk, spot, room)?;
            return Ok(room);
        }
        self.stored(spot, room)
    }

    // The same where nothing is staged: they are always in the room.
    pub fn load(&self, row: u32, disk: usize, room: &mut Block) -> io::Result<()> {
        let spot = self.spot(row, disk);
        if self.meta.out.is(spot.disk) {
            return self.make(row, disk, spot, room);
        }
        self.disks[spot.disk].read(spot.place, room)
    }

    // The bytes of a place, which are staged or read into the room given.
    pub fn stored<'a>(&'a self, spot: Target, room: &'a mut Block) -> io::Result<&'a Block> {
        if let Some(staged) = self.batch.get(spot) {
            return Ok(staged);
        }
        self.disks[spot.disk].read(spot.place, room)?;
        Ok(room)
    }

    // Makes the bytes of a cell that are on the disk that is out of the rest of its stripe or of its row.
    fn make(&self, row: u32, disk: usize, spot: Target, sum: &mut Block) -> io::Result<()> {
        sum.fill(0);
        if !self.is_hard(row, disk) {
            return self.add_rest(spot, sum);
        }
        let mut others = (0..self.meta.setup.disks).filter(|&other| other != disk);
        others.try_for_each(|other| self.add(self.spot(row, other), sum))
    }

    // Adds a block to a sum. One of a stripe may be on the disk that is out.
    pub fn add(&self, spot: Target, sum: &mut Block) -> io::Result<()> {
        if self.meta.out.is(spot.disk) {
            return self.add_rest(spot, sum);
        }
        let mut room = [0; BLOCK_SIZE];
        xor(sum, self.stored(spot, &mut room)?);
        Ok(())
    }

    // Adds to a sum the blocks of a stripe but this one.
    pub fn add_rest(&self, spot: Target, sum: &mut Block) -> io::Result<()> {
        let mut others = (0..self.meta.gear).filter(|&disk| disk != spot.disk);
        others.try_for_each(|disk| self.add(Target { disk, ..spot }, sum))
    }

    // The bytes of a block.
    pub fn read<'a>(&'a self, block: u32, room: &'a mut Block) -> io::Result<&'a Block> {
        let (row, disk) = self.layout.home(block);
        self.value(row, disk, room)
    }
}
