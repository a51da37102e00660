// The meta: what an array is set up to be, and its state; and where its blocks lie.
use crate::disk::Block;

pub const SLOTS: usize = 8;
// The rows whose dirty bits are in one block of the map.
pub const ROWS_PER_MAP: u32 = 512;

// Places of the log; after it comes the dirty map.
pub const GATE: u32 = 0;
pub const META: u32 = 1;
pub const NEXT_META: u32 = 2;
pub const TARGETS: u32 = 3;
pub const BODY: u32 = 4;
pub const MAP: u32 = 100;

// A shift under way goes to a gear.
#[derive(Clone, Copy, PartialEq)]
pub enum Phase {
    Steady,
    Down(usize),
    Up(usize),
}

impl Phase {
    pub fn to(self) -> Option<usize> {
        match self {
            Phase::Steady => None,
            Phase::Down(to) | Phase::Up(to) => Some(to),
        }
    }
}

// Which disk the array does without. So many units of a fresh one are rebuilt.
#[derive(Clone, Copy, PartialEq)]
pub enum Out {
    No,
    Gone(usize),
    Fresh(usize, u32),
}

impl Out {
    pub fn disk(self) -> Option<usize> {
        match self {
            Out::No => None,
            Out::Gone(disk) | Out::Fresh(disk, _) => Some(disk),
        }
    }

    pub fn is(self, disk: usize) -> bool {
        self.disk() == Some(disk)
    }

    // Whether the place of a unit is written on a disk.
    pub fn is_written(self, disk: usize, unit: u32) -> bool {
        match self {
            Out::No => true,
            Out::Gone(gone) => disk != gone,
            Out::Fresh(fresh, rebuilt) => disk != fresh || unit < rebuilt,
        }
    }
}

pub struct Setup {
    pub disks: usize,
    // How many disks spin in each gear.
    pub gears: Vec<usize>,
    pub rows: u32,
    // The units that a tick moves.
    pub rate: u32,
    // The requests that a disk serves between two ticks, and the loads in percent at which a shift is due.
    pub service: u32,
    pub up: u8,
    pub down: u8,
    // How many samples each window has.
    pub windows: Vec<usize>,
    // The spin-ups of a disk: the most of its life, those at once, and the ticks after which it may have one more.
    pub ration: u16,
    pub burst: u16,
    pub period: u32,
    pub spinning_mj: u32,
    pub parked_mj: u32,
    pub spinup_mj: u32,
}

impl Setup {
    pub fn lower(&self, gear: usize) -> Option<usize> {
        self.gears.iter().copied().rfind(|&lower| lower < gear)
    }

    pub fn higher(&self, gear: usize) -> Option<usize> {
        self.gears.iter().copied().find(|&higher| higher > gear)
    }
}

pub struct Meta {
    // As it was read. What changes is spelled over it.
    block: Block,
    pub setup: Setup,
    pub epoch: u64,
    pub writes: u64,
    pub ticks: u64,
    pub gear: usize,
    pub phase: Phase,
    // How many stripes of the gear to which a shift goes are filled.
    pub fill: u32,
    pub out: Out,
    // The spin-ups of each disk.
    pub spins: [u16; SLOTS],
}

fn short(block: &Block, at: usize) -> u16 {
    u16::from_be_bytes([block[at], block[at + 1]])
}

fn word(block: &Block, at: usize) -> u32 {
    u32::from_be_bytes([block[at], block[at + 1], block[at + 2], block[at + 3]])
}

fn long(block: &Block, at: usize) -> u64 {
    u64::from(word(block, at)) << 32 | u64::from(word(block, at + 4))
}

fn shorts(block: &Block, at: usize, count: usize) -> impl Iterator<Item = u16> + '_ {
    (0..count).map(move |n| short(block, at + 2 * n))
}

impl Setup {
    fn read(block: &Block) -> Option<Setup> {
        let gears = block[12..20].get(..block[11] as usize)?;
        let setup = Setup {
            disks: block[10].into(),
            gears: gears.iter().map(|&gear| gear.into()).collect(),
            rows: word(block, 20),
            rate: word(block, 24),
            service: word(block, 28),
            up: block[32],
            down: block[33],
            windows: shorts(block, 36, block[35].min(3).into()).map(usize::from).collect(),
            ration: short(block, 42),
            spinning_mj: word(block, 100),
            parked_mj: word(block, 104),
            spinup_mj: word(block, 108),
            burst: short(block, 112),
            period: word(block, 114),
        };
        let is_array = block.starts_with(b"PARAIDAR")
            && short(block, 8) == 2
            && (3..=SLOTS).contains(&setup.disks)
            && (1..=65536).contains(&setup.rows)
            && setup.gears.iter().all(|gear| (3..=setup.disks).contains(gear))
            && setup.gears.is_sorted_by(|a, b| a < b)
            && setup.gears.last() == Some(&setup.disks)
            && (1..=65536).contains(&setup.rate)
            && (1..=1 << 20).contains(&setup.service)
            && block[34] == 0
            && (1..=3).contains(&block[35])
            && setup.windows.iter().all(|length| (1..=1024).contains(length))
            && setup.period > 0;
        is_array.then_some(setup)
    }
}

impl Meta {
    // The meta of an array of mode `whole` in no shift and with no disk out.
    pub fn read(block: Block) -> Option<Meta> {
        let setup = Setup::read(&block)?;
        let (gear, phase, out, fill) = (block[68].into(), block[69], block[71], word(&block, 76));
        if !setup.gears.contains(&gear) || phase != 0 || out != 255 || fill != 0 {
            return None;
        }
        let mut spins = [0; SLOTS];
        spins.iter_mut().zip(shorts(&block, 84, SLOTS)).for_each(|(spins, said)| *spins = said);
        let (epoch, writes, ticks) = (long(&block, 44), long(&block, 52), long(&block, 60));
        Some(Meta { block, setup, epoch, writes, ticks, gear, phase: Phase::Steady, fill, out: Out::No, spins })
    }

    pub fn spell(&self) -> Block {
        let mut block = self.block;
        block[44..52].copy_from_slice(&self.epoch.to_be_bytes());
        block[52..60].copy_from_slice(&self.writes.to_be_bytes());
        block[60..68].copy_from_slice(&self.ticks.to_be_bytes());
        let (phase, to) = match self.phase {
            Phase::Steady => (0, 0),
            Phase::Down(to) => (1, to),
            Phase::Up(to) => (2, to),
        };
        let (out, fresh, rebuilt) = match self.out {
            Out::No => (255, 0, 0),
            Out::Gone(disk) => (disk, 0, 0),
            Out::Fresh(disk, rebuilt) => (disk, 1, rebuilt),
        };
        block[68..73].copy_from_slice(&[self.gear as u8, phase, to as u8, out as u8, fresh]);
        block[76..80].copy_from_slice(&self.fill.to_be_bytes());
        block[80..84].copy_from_slice(&rebuilt.to_be_bytes());
        for (bytes, spins) in block[84..100].chunks_exact_mut(2).zip(self.spins) {
            bytes.copy_from_slice(&spins.to_be_bytes());
        }
        block
    }

    // The gear to which a shift up goes, or 0.
    pub fn rising(&self) -> usize {
        match self.phase {
            Phase::Up(to) => to,
            Phase::Steady | Phase::Down(_) => 0,
        }
    }

    // How many disks spin, whether or not one is out.
    pub fn powered(&self) -> usize {
        self.gear.max(self.rising())
    }

    // The first disk from `to` on that has had its allowance of spin-ups, so that the shift may not park it.
    pub fn used_up(&self, to: usize) -> Option<usize> {
        let earned = self.ticks / u64::from(self.setup.period);
        let allowed = earned.saturating_add(self.setup.burst.into()).min(self.setup.ration.into());
        (to..self.gear).find(|&disk| u64::from(self.spins[disk]) >= allowed)
    }
}

// A stripe of the region of a gear, with its place on each disk below that gear.
#[derive(Clone, Copy)]
pub struct Stripe {
    pub number: u32,
    pub place: u32,
    // The disk of its parity.
    pub parity: usize,
}

pub struct Layout {
    disks: usize,
    rows: u32,
    // The place of the first row.
    pub first: u32,
    // The place of the first stripe of each gear.
    regions: [u32; SLOTS + 1],
    // How many blocks a disk needs.
    pub size: u32,
}

impl Layout {
    pub fn new(setup: &Setup) -> Layout {
        let first = MAP + setup.rows.div_ceil(ROWS_PER_MAP);
        let (disks, rows, size) = (setup.disks, setup.rows, first + setup.rows);
        let mut layout = Layout { disks, rows, first, regions: [0; SLOTS + 1], size };
        for &gear in &setup.gears {
            layout.regions[gear] = layout.size;
            layout.size += layout.stripes(gear);
        }
        layout
    }

    pub fn has(&self, block: u32) -> bool {
        u64::from(block) < u64::from(self.rows) * (self.disks as u64 - 1)
    }

    pub fn parity_disk(&self, row: u32) -> usize {
        self.disks - 1 - row as usize % self.disks
    }

    // The row and the disk of a block.
    pub fn home(&self, block: u32) -> (u32, usize) {
        let data = self.disks as u32 - 1;
        let (row, index) = (block / data, (block % data) as usize);
        (row, if index < self.parity_disk(row) { index } else { index + 1 })
    }

    // How many stripes a gear has.
    pub fn stripes(&self, gear: usize) -> u32 {
        (self.rows * (self.disks - gear) as u32).div_ceil(gear as u32 - 1)
    }

    pub fn stripe(&self, gear: usize, number: u32) -> Stripe {
        Stripe { number, place: self.regions[gear] + number, parity: gear - 1 - number as usize % gear }
    }

    // The copy of a cell in a gear that does not need its disk: the stripe, and the disk.
    pub fn copy(&self, gear: usize, row: u32, disk: usize) -> (Stripe, usize) {
        let number = row * (self.disks - gear) as u32 + (disk - gear) as u32;
        let (number, index) = (number / (gear as u32 - 1), (number % (gear as u32 - 1)) as usize);
        let stripe = self.stripe(gear, number);
        (stripe, if index < stripe.parity { index } else { index + 1 })
    }

    // The row and the disk of the cell that has its copy there in a stripe, unless no cell has.
    pub fn cell(&self, gear: usize, stripe: Stripe, disk: usize) -> Option<(u32, usize)> {
        let index = if disk < stripe.parity { disk } else { disk - 1 };
        let number = stripe.number * (gear as u32 - 1) + index as u32;
        let parked = (self.disks - gear) as u32;
        let row = number / parked;
        (row < self.rows).then_some((row, gear + (number % parked) as usize))
    }
}
