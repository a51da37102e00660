// Ticks, and shifts from gear to gear. Copies go to places that nothing reads yet, and are synced before the commit
// that makes them count. docs/GEARS.md tells which calls a shift makes.
use crate::array::Array;
use crate::disk::{xor, Block, BLOCK_SIZE};
use crate::meta::{Out, Phase, Stripe, ROWS_PER_MAP, SLOTS};
use std::collections::VecDeque;
use std::io;

const GREATEST_SAMPLE: u32 = 1 << 20;
// The most blocks of the map in which cells are brought back by one commit: each stands on both log disks.
const MAPS_PER_GROUP: usize = 48;

// What a tick did.
pub enum Event {
    Steady,
    Waiting,
    Moving,
    Flipped,
    Begun(usize),
    Rebuilt(usize),
    Ration(usize),
}

// Why a shift does not begin.
pub enum Refusal {
    Top,
    Lowest,
    Shifting(usize),
    Out(usize),
    Ration(usize),
}

// The last samples, each the reads and writes of one tick, with their sum and that of their squares.
pub struct Window {
    length: usize,
    samples: VecDeque<u32>,
    sum: u64,
    squares: u64,
}

impl Window {
    pub fn new(length: usize) -> Window {
        Window { length, samples: VecDeque::with_capacity(length), sum: 0, squares: 0 }
    }

    fn push(&mut self, sample: u32) {
        if self.is_full() {
            let oldest = self.samples.pop_front().map_or(0, u64::from);
            self.sum -= oldest;
            self.squares -= oldest * oldest;
        }
        self.samples.push_back(sample);
        self.sum += u64::from(sample);
        self.squares += u64::from(sample) * u64::from(sample);
    }

    fn is_full(&self) -> bool {
        self.samples.len() == self.length
    }

    // Whether the mean of the samples is at least so many hundredths.
    fn is_busy(&self, load: u64) -> bool {
        load * self.length as u64 <= 100 * self.sum
    }

    // Whether the mean of the samples and their deviation together are at most so many hundredths.
    fn is_quiet(&self, load: u64) -> bool {
        let Some(spare) = (load * self.length as u64).checked_sub(100 * self.sum) else {
            return false;
        };
        let spread = self.length as u64 * self.squares - self.sum * self.sum;
        10000 * u128::from(spread) <= u128::from(spare) * u128::from(spare)
    }
}

impl Array {
    // Gives how many units were moved, and what the tick did.
    pub fn tick(&mut self) -> io::Result<(u32, Event)> {
        self.count_energy();
        self.meta.ticks += 1;
        for window in &mut self.windows {
            window.push(self.served.min(GREATEST_SAMPLE));
        }
        self.served = 0;
        match (self.meta.out, self.meta.phase) {
            (Out::Gone(_), _) => Ok((0, Event::Waiting)),
            (Out::Fresh(disk, rebuilt), _) => self.rebuild(disk, rebuilt),
            (Out::No, Phase::Steady) => self.decide(),
            (Out::No, Phase::Down(to)) => self.move_down(to),
            (Out::No, Phase::Up(to)) => self.move_up(to),
        }
    }

    // Counts what the disks have used since the last tick.
    fn count_energy(&mut self) {
        let setup = &self.meta.setup;
        for disk in 0..setup.disks {
            let used = match self.meta.out {
                Out::Gone(gone) if gone == disk => 0,
                Out::Fresh(fresh, _) if fresh == disk => setup.spinning_mj,
                _ if disk < self.meta.powered() => setup.spinning_mj,
                _ => setup.parked_mj,
            };
            self.energy += u64::from(used);
        }
    }

    // Begins the shift that the load asks for.
    fn decide(&mut self) -> io::Result<(u32, Event)> {
        let event = match self.wanted() {
            Phase::Steady => Event::Steady,
            Phase::Up(to) => {
                self.begin_up(to)?;
                Event::Begun(to)
            }
            Phase::Down(to) => match self.meta.used_up(to) {
                Some(disk) => Event::Ration(disk),
                None => {
                    self.begin_down(to)?;
                    Event::Begun(to)
                }
            },
        };
        Ok((0, event))
    }

    // A shift up is due where each window is busy in this gear, one down where each would be quiet in the lower gear.
    fn wanted(&self) -> Phase {
        let (setup, gear) = (&self.meta.setup, self.meta.gear);
        if !self.windows.iter().all(Window::is_full) {
            return Phase::Steady;
        }
        let load = |percent: u8, gear: usize| u64::from(percent) * u64::from(setup.service) * gear as u64;
        if let Some(to) = setup.higher(gear) {
            if self.windows.iter().all(|window| window.is_busy(load(setup.up, gear))) {
                return Phase::Up(to);
            }
        }
        if let Some(to) = setup.lower(gear) {
            if self.windows.iter().all(|window| window.is_quiet(load(setup.down, to))) {
                return Phase::Down(to);
            }
        }
        Phase::Steady
    }

    // Begins a shift up that was asked for, and gives the gear to which it goes.
    pub fn ask_up(&mut self) -> io::Result<Result<usize, Refusal>> {
        let Some(to) = self.meta.setup.higher(self.meta.gear) else {
            return Ok(Err(Refusal::Top));
        };
        if let Some(refusal) = self.hindrance() {
            return Ok(Err(refusal));
        }
        self.flush()?;
        self.begin_up(to)?;
        Ok(Ok(to))
    }

    // The same of a shift down.
    pub fn ask_down(&mut self) -> io::Result<Result<usize, Refusal>> {
        let Some(to) = self.meta.setup.lower(self.meta.gear) else {
            return Ok(Err(Refusal::Lowest));
        };
        let used_up = || self.meta.used_up(to).map(Refusal::Ration);
        if let Some(refusal) = self.hindrance().or_else(used_up) {
            return Ok(Err(refusal));
        }
        self.flush()?;
        self.begin_down(to)?;
        Ok(Ok(to))
    }

    fn hindrance(&self) -> Option<Refusal> {
        let shifting = self.meta.phase.to().map(Refusal::Shifting);
        shifting.or_else(|| self.meta.out.disk().map(Refusal::Out))
    }

    fn begin_down(&mut self, to: usize) -> io::Result<()> {
        self.meta.phase = Phase::Down(to);
        self.commit()
    }

    // Each spin-up is counted before it happens.
    fn begin_up(&mut self, to: usize) -> io::Result<()> {
        let rising = self.meta.gear..to;
        self.meta.phase = Phase::Up(to);
        self.energy += rising.len() as u64 * u64::from(self.meta.setup.spinup_mj);
        self.meta.spins[rising.clone()].iter_mut().for_each(|spins| *spins += 1);
        self.commit()?;
        self.disks[rising].iter_mut().filter(|disk| !disk.spins).try_for_each(|disk| disk.spin_up())
    }

    // Copies as many stripes as a tick moves. The marks of the last ones go with the commit of the gear.
    fn move_down(&mut self, to: usize) -> io::Result<(u32, Event)> {
        self.flush()?;
        let (from, all) = (self.meta.fill, self.layout.stripes(to));
        self.fill(to, all.min(from + self.meta.setup.rate))?;
        let moved = self.meta.fill - from;
        if self.meta.fill < all {
            self.commit()?;
            return Ok((moved, Event::Moving));
        }
        self.flip(to)?;
        Ok((moved, Event::Flipped))
    }

    // Brings all dirty cells back, and copies what the new gear still parks.
    fn move_up(&mut self, to: usize) -> io::Result<(u32, Event)> {
        self.flush()?;
        let cells = self.bring_back(to)?;
        let stripes = self.layout.stripes(to);
        if stripes > 0 {
            self.flush()?;
            self.fill(to, stripes)?;
        }
        self.flip(to)?;
        Ok((cells + stripes, Event::Flipped))
    }

    fn flip(&mut self, to: usize) -> io::Result<()> {
        let from = self.meta.gear;
        self.meta.gear = to;
        self.meta.phase = Phase::Steady;
        self.meta.fill = 0;
        self.commit()?;
        self.disks.iter_mut().take(from).skip(to).try_for_each(|disk| disk.park())
    }

    // Copies the stripes of a gear from the fill mark on, and marks them.
    fn fill(&mut self, to: usize, end: u32) -> io::Result<()> {
        let mut blocks = [[0; BLOCK_SIZE]; SLOTS];
        for number in self.meta.fill..end {
            let stripe = self.layout.stripe(to, number);
            self.gather(to, stripe, &mut blocks)?;
            for (disk, block) in self.disks.iter_mut().zip(&blocks[..to]) {
                disk.write(stripe.place, block)?;
            }
        }
        self.settle()?;
        self.meta.fill = end;
        Ok(())
    }

    // Reads the cells of a stripe, and makes its parity. A place without a cell holds zeros.
    fn gather(&self, to: usize, stripe: Stripe, blocks: &mut [Block; SLOTS]) -> io::Result<()> {
        let mut sum = [0; BLOCK_SIZE];
        for disk in (0..to).filter(|&disk| disk != stripe.parity) {
            match self.layout.cell(to, stripe, disk) {
                Some((row, cell)) => self.load(row, cell, &mut blocks[disk])?,
                None => blocks[disk].fill(0),
            }
            xor(&mut sum, &blocks[disk]);
        }
        blocks[stripe.parity] = sum;
        Ok(())
    }

    // Copies the dirty cells of the disks that come up to their places, group by group. The marks of each group are
    // committed before the next one; those of the last one are left staged.
    fn bring_back(&mut self, to: usize) -> io::Result<u32> {
        let rising = (self.meta.gear..to).fold(0, |bits, disk| bits | 1 << disk);
        let (mut moved, mut row) = (0, 0);
        while let Some(ahead) = self.dirty[row..].iter().position(|bits| bits & rising != 0) {
            self.flush()?;
            let (cells, next) = self.bring_group(row + ahead, rising)?;
            moved += cells;
            row = next;
        }
        Ok(moved)
    }

    // Copies a group of cells from a row on, and stages its marks. Gives how many they were, and the row after them.
    fn bring_group(&mut self, first: usize, rising: u8) -> io::Result<(u32, usize)> {
        let mut room = [0; BLOCK_SIZE];
        let mut maps: Vec<u32> = Vec::with_capacity(MAPS_PER_GROUP);
        let (mut cells, mut end) = (0, self.dirty.len());
        for row in first..self.dirty.len() {
            let bits = self.dirty[row] & rising;
            if bits == 0 {
                continue;
            }
            let map = row as u32 / ROWS_PER_MAP;
            if maps.last() != Some(&map) {
                if maps.len() == MAPS_PER_GROUP {
                    end = row;
                    break;
                }
                maps.push(map);
            }
            for disk in (0..SLOTS).filter(|disk| bits >> disk & 1 == 1) {
                self.load(row as u32, disk, &mut room)?;
                self.disks[disk].write(self.layout.first + row as u32, &room)?;
            }
            cells += bits.count_ones();
        }
        self.settle()?;
        self.dirty[first..end].iter_mut().for_each(|bits| *bits &= !rising);
        maps.into_iter().for_each(|map| self.stage_map(map));
        Ok((cells, end))
    }
}
