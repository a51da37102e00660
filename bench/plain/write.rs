// Writes are staged: the blocks of each row, and its parity once.
use crate::array::Array;
use crate::commit::{Target, MAX_TARGETS};
use crate::disk::{xor, Block, BLOCK_SIZE};
use crate::meta::{Out, Stripe, MAP, ROWS_PER_MAP, SLOTS};
use std::array;
use std::io;
use std::mem;

// How many targets of a batch one block of a write may need in any gear.
const TARGETS_PER_BLOCK: usize = 10;

// A block of a write and its new bytes.
#[derive(Clone, Copy)]
pub struct Pair {
    pub block: u32,
    pub bytes: Block,
}

// The stripe of a copy, and its disk.
type Copied = (Stripe, usize);

// Whether it takes fewer reads to make a parity of the blocks that stay than of the old bytes of those that change.
fn is_sooner_anew(disks: usize, parity: usize, new: &[Option<&Block>], staged: &[Option<&Block>]) -> bool {
    let (mut old, mut rest) = (0, 0);
    for disk in 0..disks {
        let reads = u32::from(staged[disk].is_none());
        if disk == parity || new[disk].is_some() {
            old += reads;
        } else {
            rest += reads;
        }
    }
    rest < old
}

impl Array {
    pub fn write(&mut self, pairs: &[Pair]) -> io::Result<()> {
        if self.batch.targets.len() + TARGETS_PER_BLOCK * pairs.len() > MAX_TARGETS {
            self.commit()?;
        }
        for (at, pair) in pairs.iter().enumerate() {
            let (row, _) = self.layout.home(pair.block);
            if pairs[..at].iter().all(|before| self.layout.home(before.block).0 != row) {
                if self.has_copies() || self.meta.out != Out::No {
                    self.write_row_anywhere(row, pairs)?;
                } else {
                    self.write_row(row, pairs)?;
                }
            }
        }
        self.meta.writes += 1;
        Ok(())
    }

    // Whether a cell may have a copy.
    fn has_copies(&self) -> bool {
        self.meta.gear < self.meta.setup.disks || self.meta.fill > 0
    }

    // What the pairs write to each disk in a row. Of several that name a block the last one counts.
    fn given<'a>(&self, row: u32, pairs: &'a [Pair]) -> [Option<&'a Block>; SLOTS] {
        let mut new = [None; SLOTS];
        for pair in pairs {
            let (r, disk) = self.layout.home(pair.block);
            if r == row {
                new[disk] = Some(&pair.bytes);
            }
        }
        new
    }

    // Stages what the pairs write in a row, and its parity, which is made of the old bytes or of those that
    // stay, whichever need fewer reads.
    fn write_row(&mut self, row: u32, pairs: &[Pair]) -> io::Result<()> {
        let (place, parity) = (self.layout.first + row, self.layout.parity_disk(row));
        let new = self.given(row, pairs);
        let staged = self.batch.staged_at(place);
        let anew = is_sooner_anew(self.meta.setup.disks, parity, &new, &staged);
        let mut sum = [0; BLOCK_SIZE];
        let mut room = [0; BLOCK_SIZE];
        let mut add = |disk: usize, sum: &mut Block| match staged[disk] {
            Some(bytes) => Ok(xor(sum, bytes)),
            None => self.disks[disk].read(place, &mut room).map(|()| xor(sum, &room)),
        };
        for disk in (0..self.meta.setup.disks).filter(|&disk| disk != parity) {
            if new[disk].is_some() != anew {
                add(disk, &mut sum)?;
            }
            if let Some(bytes) = new[disk] {
                xor(&mut sum, bytes);
            }
        }
        if !anew {
            add(parity, &mut sum)?;
        }
        for pair in pairs {
            let (r, disk) = self.layout.home(pair.block);
            if r == row {
                self.batch.put(Target { disk, place }, &pair.bytes);
            }
        }
        self.batch.put(Target { disk: parity, place }, &sum);
        Ok(())
    }

    // The same where cells may have copies, or a disk is out. What is staged of a cell may depend on its old value too.
    fn write_row_anywhere(&mut self, row: u32, pairs: &[Pair]) -> io::Result<()> {
        let parity = self.layout.parity_disk(row);
        let new = self.given(row, pairs);
        let is_changed: [bool; SLOTS] = array::from_fn(|disk| disk == parity || new[disk].is_some());
        let is_kept: [bool; SLOTS] = array::from_fn(|disk| is_changed[disk] && self.needs_old(row, disk));
        let is_needed = self.needs_new(row, parity);
        let anew = is_needed && self.is_made_anew(row, &is_changed, &is_kept);
        let mut sum = [0; BLOCK_SIZE];
        let mut room = [0; BLOCK_SIZE];
        let mut kept = mem::take(&mut self.kept);
        for disk in (0..self.meta.setup.disks).filter(|&disk| disk != parity).chain([parity]) {
            let is_part = is_needed && is_changed[disk] != anew;
            if is_part || is_kept[disk] {
                let value = self.value(row, disk, &mut room)?;
                if is_kept[disk] {
                    kept[disk] = *value;
                }
                if is_part {
                    xor(&mut sum, value);
                }
            }
            if let Some(bytes) = new[disk] {
                xor(&mut sum, bytes);
            }
        }
        self.kept = kept;
        self.write_cells(row, pairs, &sum)
    }

    // Stages what the pairs write in a row, its parity, and the block of the map where one of its dirty bits changes.
    fn write_cells(&mut self, row: u32, pairs: &[Pair], parity: &Block) -> io::Result<()> {
        let was = self.dirty[row as usize];
        for pair in pairs {
            let (r, disk) = self.layout.home(pair.block);
            if r == row {
                self.write_cell(row, disk, &pair.bytes)?;
            }
        }
        self.write_cell(row, self.layout.parity_disk(row), parity)?;
        if self.dirty[row as usize] != was {
            self.stage_map(row / ROWS_PER_MAP);
        }
        Ok(())
    }

    // The copy that a write of a cell changes, unless it goes to its place. In a shift up it does so also where the
    // copy has the newest bytes.
    fn copy(&self, row: u32, disk: usize) -> Option<Copied> {
        if self.is_hard(row, disk) || disk < self.meta.rising() && !self.meta.out.is(disk) {
            return None;
        }
        Some(self.layout.copy(self.meta.gear, row, disk))
    }

    // Its copy in the gear to which a shift goes, where the stripe is filled already.
    fn next_copy(&self, row: u32, disk: usize) -> Option<Copied> {
        if self.meta.fill == 0 {
            return None;
        }
        let to = self.meta.phase.to().filter(|&to| disk >= to)?;
        Some(self.layout.copy(to, row, disk)).filter(|(stripe, _)| stripe.number < self.meta.fill)
    }

    // Whether the block of a stripe is written on a disk.
    fn is_in_stripe(&self, stripe: Stripe, disk: usize) -> bool {
        self.meta.out.is_written(disk, self.meta.setup.rows + stripe.number)
    }

    // Whether what is staged of a cell depends on its old value: the parity of a stripe does.
    fn needs_old(&self, row: u32, disk: usize) -> bool {
        let has_parity = |(stripe, _): Copied| self.is_in_stripe(stripe, stripe.parity);
        self.copy(row, disk).is_some_and(has_parity) || self.next_copy(row, disk).is_some_and(has_parity)
    }

    // Whether what is staged of a cell shows its new value.
    fn needs_new(&self, row: u32, disk: usize) -> bool {
        self.meta.out.is_written(disk, row) || self.copy(row, disk).is_some() || self.next_copy(row, disk).is_some()
    }

    // Whether the cells that stay need fewer reads than the old values of those that change. What is kept is
    // read in any case.
    fn is_made_anew(&self, row: u32, is_changed: &[bool; SLOTS], is_kept: &[bool; SLOTS]) -> bool {
        let disks = || 0..self.meta.setup.disks;
        let changed = disks().filter(|&disk| is_changed[disk] && !is_kept[disk]);
        let old: usize = changed.map(|disk| self.reads(row, disk)).sum();
        let mut rest = 0;
        for disk in disks().filter(|&disk| !is_changed[disk]) {
            if rest >= old {
                return false;
            }
            rest += self.reads(row, disk);
        }
        rest < old
    }

    // How many blocks of the disks are read for a cell.
    fn reads(&self, row: u32, disk: usize) -> usize {
        let spot = self.spot(row, disk);
        if !self.meta.out.is(spot.disk) {
            return usize::from(self.batch.find(spot).is_none());
        }
        if self.is_hard(row, disk) {
            self.meta.setup.disks - 1
        } else {
            self.meta.gear - 1
        }
    }

    // Stages a cell: in its place or in its copy, and in the copy that a shift has made. Its new bytes are the old
    // ones of what follows.
    fn write_cell(&mut self, row: u32, disk: usize, bytes: &Block) -> io::Result<()> {
        let (copy, next) = (self.copy(row, disk), self.next_copy(row, disk));
        let bit = 1 << disk;
        match copy {
            Some(copy) => {
                self.write_copy(copy, disk, bytes)?;
                self.dirty[row as usize] |= bit;
            }
            None => {
                if self.meta.out.is_written(disk, row) {
                    self.batch.put(self.place(row, disk), bytes);
                }
                self.dirty[row as usize] &= !bit;
            }
        }
        if let Some(next) = next {
            self.write_copy(next, disk, bytes)?;
        }
        if copy.is_some() || next.is_some() {
            self.kept[disk] = *bytes;
        }
        Ok(())
    }

    // Stages a copy of a cell, with the parity of its stripe.
    fn write_copy(&mut self, (stripe, copy): Copied, disk: usize, bytes: &Block) -> io::Result<()> {
        let target = |disk| Target { disk, place: stripe.place };
        let has_parity = self.is_in_stripe(stripe, stripe.parity);
        let mut sum = [0; BLOCK_SIZE];
        if has_parity {
            self.add(target(stripe.parity), &mut sum)?;
            xor(&mut sum, &self.kept[disk]);
            xor(&mut sum, bytes);
        }
        if self.is_in_stripe(stripe, copy) {
            self.batch.put(target(copy), bytes);
        }
        if has_parity {
            self.batch.put(target(stripe.parity), &sum);
        }
        Ok(())
    }

    // Stages a block of the dirty map for both log disks.
    pub fn stage_map(&mut self, number: u32) {
        let unit = self.meta.setup.rows + self.layout.stripes(self.meta.gear) + number;
        for disk in (0..2).filter(|&disk| self.meta.out.is_written(disk, unit)) {
            self.batch.put(Target { disk, place: MAP + number }, map_block(&self.dirty, number));
        }
    }
}

// The block of the map with the dirty bits of 512 rows.
fn map_block(dirty: &[u8], number: u32) -> &Block {
    dirty[number as usize * BLOCK_SIZE..].first_chunk().expect("the map has whole blocks")
}
