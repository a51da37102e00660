// A disk is taken out, replaced and rebuilt, unit by unit.
use crate::array::Array;
use crate::commit::Target;
use crate::disk::{Block, Disk, BLOCK_SIZE};
use crate::gears::Event;
use crate::meta::{Out, Phase, MAP};
use std::io;

// Why a disk is not taken out or replaced.
pub enum Fault {
    NoDisk,
    Out(usize),
    NotOut,
}

impl Array {
    // Takes a disk out. What is staged is committed before.
    pub fn fail(&mut self, disk: u32) -> io::Result<Result<(), Fault>> {
        let Some(disk) = self.known(disk) else {
            return Ok(Err(Fault::NoDisk));
        };
        if let Some(out) = self.meta.out.disk() {
            return Ok(Err(Fault::Out(out)));
        }
        self.flush()?;
        self.meta.out = Out::Gone(disk);
        self.meta.fill = 0;
        if let Phase::Down(_) = self.meta.phase {
            self.meta.phase = Phase::Steady;
        }
        self.commit()?;
        Ok(Ok(()))
    }

    // Puts a fresh disk in the place of the one that is out. A stop before the last commit finds a disk that is
    // gone, so that nothing is read from it.
    pub fn replace(&mut self, disk: u32) -> io::Result<Result<(), Fault>> {
        let Some(disk) = self.known(disk) else {
            return Ok(Err(Fault::NoDisk));
        };
        if !self.meta.out.is(disk) {
            return Ok(Err(Fault::NotOut));
        }
        self.meta.out = Out::Gone(disk);
        self.meta.spins[disk] = 0;
        self.commit()?;
        self.disks[disk] = Disk::attach(disk, self.layout.size)?;
        self.meta.out = Out::Fresh(disk, 0);
        self.commit()?;
        Ok(Ok(()))
    }

    fn known(&self, disk: u32) -> Option<usize> {
        let disk = disk as usize;
        (disk < self.meta.setup.disks).then_some(disk)
    }

    // The units of a rebuild: rows, the stripes of the gear where it needs the disk, and on a log disk the map.
    fn units(&self, disk: usize) -> u32 {
        let stripes = if disk < self.meta.gear { self.layout.stripes(self.meta.gear) } else { 0 };
        let maps = if disk < 2 { self.layout.first - MAP } else { 0 };
        self.meta.setup.rows + stripes + maps
    }

    // Rebuilds as many units as a tick moves. The last ones are marked by the commit that takes the disk in again.
    pub fn rebuild(&mut self, disk: usize, first: u32) -> io::Result<(u32, Event)> {
        self.flush()?;
        let all = self.units(disk);
        let end = all.min(first + self.meta.setup.rate);
        self.rebuild_units(disk, first, end)?;
        if end < all {
            self.meta.out = Out::Fresh(disk, end);
            self.commit()?;
            return Ok((end - first, Event::Moving));
        }
        self.meta.out = Out::No;
        self.commit()?;
        if disk >= self.meta.powered() {
            self.disks[disk].park()?;
        }
        Ok((end - first, Event::Rebuilt(disk)))
    }

    fn rebuild_units(&mut self, disk: usize, first: u32, end: u32) -> io::Result<()> {
        let mut room = [0; BLOCK_SIZE];
        for unit in first..end {
            if let Some(place) = self.make_unit(disk, unit, &mut room)? {
                self.disks[disk].write(place, &room)?;
            }
        }
        self.settle()
    }

    // Makes the block of a unit, and gives its place. A dirty cell of a parked disk has its newest bytes in its copy
    // alone, so that nothing is written for it.
    fn make_unit(&self, disk: usize, unit: u32, block: &mut Block) -> io::Result<Option<u32>> {
        let (rows, gear) = (self.meta.setup.rows, self.meta.gear);
        if unit < rows {
            if disk >= gear && self.is_dirty(unit, disk) {
                return Ok(None);
            }
            self.load(unit, disk, block)?;
            return Ok(Some(self.layout.first + unit));
        }
        let past = unit - rows;
        let stripes = self.layout.stripes(gear);
        if past < stripes {
            let place = self.layout.stripe(gear, past).place;
            block.fill(0);
            self.add_rest(Target { disk, place }, block)?;
            return Ok(Some(place));
        }
        let place = MAP + past - stripes;
        self.disks[1 - disk].read(place, block)?;
        Ok(Some(place))
    }
}
