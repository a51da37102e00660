// The commit. Its steps are those of docs/ARCHITECTURE.md, and so is the witness on disk 2.
use crate::array::Array;
use crate::disk::{Block, BLOCK_SIZE};
use crate::meta::{Out, BODY, GATE, META, NEXT_META, SLOTS, TARGETS};
use std::io;

// The most targets of a batch.
pub const MAX_TARGETS: usize = 96;
// The disk that bears witness against a log disk.
const WITNESS: usize = 2;

const CLOSED: Block = [0; BLOCK_SIZE];
const OPEN: Block = {
    let mut gate = CLOSED;
    gate[0] = 1;
    gate
};

// Where a block goes.
#[derive(Clone, Copy, PartialEq)]
pub struct Target {
    pub disk: usize,
    pub place: u32,
}

// What the next commit brings to its place, in the order in which the targets were first staged. No target stands
// in it twice.
pub struct Batch {
    pub targets: Vec<Target>,
    pub blocks: Vec<Block>,
}

impl Batch {
    pub fn new() -> Batch {
        Batch { targets: Vec::with_capacity(MAX_TARGETS), blocks: Vec::with_capacity(MAX_TARGETS) }
    }

    pub fn is_empty(&self) -> bool {
        self.targets.is_empty()
    }

    // What is staged for a place, by disk.
    pub fn staged_at(&self, place: u32) -> [Option<&Block>; SLOTS] {
        let mut staged = [None; SLOTS];
        for (target, bytes) in self.targets.iter().zip(&self.blocks) {
            if target.place == place {
                staged[target.disk] = Some(bytes);
            }
        }
        staged
    }

    pub fn find(&self, target: Target) -> Option<usize> {
        self.targets.iter().position(|&staged| staged == target)
    }

    pub fn get(&self, target: Target) -> Option<&Block> {
        self.find(target).map(|at| &self.blocks[at])
    }

    pub fn put(&mut self, target: Target, block: &Block) {
        match self.find(target) {
            Some(at) => self.blocks[at] = *block,
            None => {
                self.targets.push(target);
                self.blocks.push(*block);
            }
        }
    }

    fn spell_targets(&self) -> Block {
        let mut list = [0; BLOCK_SIZE];
        list[..2].copy_from_slice(&(self.targets.len() as u16).to_be_bytes());
        for (target, bytes) in self.targets.iter().zip(list[2..].chunks_exact_mut(5)) {
            bytes[0] = target.disk as u8;
            bytes[1..].copy_from_slice(&target.place.to_be_bytes());
        }
        list
    }
}

impl Array {
    pub fn flush(&mut self) -> io::Result<()> {
        if self.batch.is_empty() {
            return Ok(());
        }
        self.commit()
    }

    // Brings what is staged to the disks, and the meta. A log disk that is out is left alone; one that comes in again
    // opens its gate first, since until then its log says nothing.
    pub fn commit(&mut self) -> io::Result<()> {
        let (was, now) = (self.named, self.meta.out.disk());
        let joins = |log: &usize| was == Some(*log) && now != was;
        let logs = || (0..2).filter(move |&log| now != Some(log));
        self.meta.epoch += 1;
        let meta = self.meta.spell();
        if let Some(log) = logs().find(joins) {
            self.put_synced([WITNESS], log as u32, &CLOSED)?;
        }
        self.write_logs(logs(), &meta)?;
        let last = logs().filter(|log| !joins(log));
        self.put_synced(logs().filter(joins).chain(last), GATE, &OPEN)?;
        self.lay()?;
        self.put_synced(logs(), META, &meta)?;
        self.put_synced(logs(), GATE, &CLOSED)?;
        if let Some(log) = now.filter(|&log| log < 2 && was != now) {
            self.put_synced([WITNESS], log as u32, &OPEN)?;
        }
        self.named = now;
        self.batch.targets.clear();
        self.batch.blocks.clear();
        Ok(())
    }

    fn write_logs(&mut self, logs: impl Iterator<Item = usize>, meta: &Block) -> io::Result<()> {
        let targets = self.batch.spell_targets();
        for log in logs {
            let log = &mut self.disks[log];
            log.write(NEXT_META, meta)?;
            log.write(TARGETS, &targets)?;
            for (place, block) in (BODY..).zip(&self.batch.blocks) {
                log.write(place, block)?;
            }
            log.sync()?;
        }
        Ok(())
    }

    // Writes a block on each of these disks, which keeps it before the next step.
    fn put_synced(&mut self, disks: impl IntoIterator<Item = usize>, place: u32, block: &Block) -> io::Result<()> {
        for disk in disks {
            self.disks[disk].write(place, block)?;
            self.disks[disk].sync()?;
        }
        Ok(())
    }

    // Writes each target in its place. One that was staged for a disk that is gone by now is left out.
    fn lay(&mut self) -> io::Result<()> {
        for (target, block) in self.batch.targets.iter().zip(&self.batch.blocks) {
            if self.meta.out != Out::Gone(target.disk) {
                self.disks[target.disk].write(target.place, block)?;
            }
        }
        self.settle()
    }

    // Syncs each disk that was written since it was synced.
    pub fn settle(&mut self) -> io::Result<()> {
        self.disks.iter_mut().filter(|disk| disk.is_loose).try_for_each(|disk| disk.sync())
    }
}
