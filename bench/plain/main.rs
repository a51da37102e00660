// A plain Rust program that does what bench/run asks of the proved one, as one would write it for speed without
// proofs: it mounts an array of image files in any gear, answers each line of a trace, and commits, with the same
// calls on the same files. A line is parsed where it was read, a block is copied once into the batch, digits come
// from tables, and each answer is one call. It is the peer of bench/run and tools/try-plain.
//
//     plain run < TRACE     over the images of the current folder
//
// It mounts no array of mode `access`, none in a shift or with a disk out, and none with a commit that a stop cut
// short. A call that fails ends it, so that it loses a disk by the event `fail` alone. It then says why, and ends
// with 2.
mod array;
mod commit;
mod disk;
mod gears;
mod lines;
mod meta;
mod rebuild;
mod write;

use array::Array;
use disk::{Block, BLOCK_SIZE};
use gears::{Event, Refusal};
use lines::{find, next_line, parse, push_block, push_line, push_number, Request, Upkeep, MAX_LINE, MAX_PAIRS};
use meta::{Out, Phase};
use rebuild::Fault;
use std::fs::File;
use std::io::{self, BufRead, Write};
use std::os::fd::AsFd;
use std::process::ExitCode;
use write::Pair;

struct Server {
    array: Array,
    // The pairs of a line.
    pairs: Box<[Pair; MAX_PAIRS]>,
    // What a read is given.
    room: Block,
    // An answer.
    text: Vec<u8>,
}

impl Server {
    fn new(array: Array) -> Server {
        let pairs = Box::new([Pair { block: 0, bytes: [0; BLOCK_SIZE] }; MAX_PAIRS]);
        Server { array, pairs, room: [0; BLOCK_SIZE], text: Vec::with_capacity(MAX_LINE) }
    }

    // Serves a line, and gives its answer.
    fn answer(&mut self, line: &[u8]) -> io::Result<&[u8]> {
        let Server { array, pairs, room, text } = self;
        text.clear();
        match parse(line, pairs) {
            Some(Request::Read(block)) if !array.layout.has(block) => push_line(b"noblock ", block.into(), text),
            Some(Request::Read(block)) => {
                push_number(block.into(), text);
                text.push(b'=');
                push_block(array.read(block, room)?, text);
                text.push(b'\n');
                array.served += 1;
            }
            Some(Request::Write(count)) => match pairs[..count].iter().find(|pair| !array.layout.has(pair.block)) {
                Some(pair) => push_line(b"noblock ", pair.block.into(), text),
                None => {
                    array.write(&pairs[..count])?;
                    push_line(b"wrote ", array.meta.writes, text);
                    array.served += 1;
                }
            },
            Some(Request::Flush) => {
                array.flush()?;
                push_line(b"flushed ", array.meta.writes, text);
            }
            Some(Request::Upkeep(upkeep)) => push_upkeep(array, upkeep, text)?,
            None => text.extend_from_slice(b"bad\n"),
        }
        Ok(text)
    }
}

// It is apart from the reads and writes, which are many.
#[inline(never)]
fn push_upkeep(array: &mut Array, upkeep: Upkeep, text: &mut Vec<u8>) -> io::Result<()> {
    match upkeep {
        Upkeep::Tick => {
            let (moved, event) = array.tick()?;
            write!(text, "tick {} moved {moved} ", array.meta.gear)?;
            push_event(event, text)
        }
        Upkeep::Up => push_shift(array.meta.gear, array.ask_up()?, text),
        Upkeep::Down => push_shift(array.meta.gear, array.ask_down()?, text),
        Upkeep::Fail(disk) => push_done("failed", disk, array.fail(disk)?, text),
        Upkeep::Replace(disk) => push_done("replaced", disk, array.replace(disk)?, text),
        Upkeep::State => push_state(array, text),
        Upkeep::Energy => writeln!(text, "energy {}", array.energy),
    }
}

fn push_event(event: Event, text: &mut Vec<u8>) -> io::Result<()> {
    match event {
        Event::Steady => writeln!(text, "steady"),
        Event::Waiting => writeln!(text, "waiting"),
        Event::Moving => writeln!(text, "moving"),
        Event::Flipped => writeln!(text, "flipped"),
        Event::Begun(to) => writeln!(text, "begun {to}"),
        Event::Rebuilt(disk) => writeln!(text, "rebuilt {disk}"),
        Event::Ration(disk) => writeln!(text, "ration {disk}"),
    }
}

fn push_shift(gear: usize, asked: Result<usize, Refusal>, text: &mut Vec<u8>) -> io::Result<()> {
    match asked {
        Ok(to) => writeln!(text, "shift {gear} {to}"),
        Err(Refusal::Top) => writeln!(text, "top"),
        Err(Refusal::Lowest) => writeln!(text, "lowest"),
        Err(Refusal::Shifting(to)) => writeln!(text, "shifting {to}"),
        Err(Refusal::Out(disk)) => writeln!(text, "out {disk}"),
        Err(Refusal::Ration(disk)) => writeln!(text, "ration {disk}"),
    }
}

fn push_done(done: &str, disk: u32, asked: Result<(), Fault>, text: &mut Vec<u8>) -> io::Result<()> {
    match asked {
        Ok(()) => writeln!(text, "{done} {disk}"),
        Err(Fault::NoDisk) => writeln!(text, "nodisk {disk}"),
        Err(Fault::Out(out)) => writeln!(text, "out {out}"),
        Err(Fault::NotOut) => writeln!(text, "notout {disk}"),
    }
}

fn push_state(array: &Array, text: &mut Vec<u8>) -> io::Result<()> {
    let meta = &array.meta;
    write!(text, "state {} ", meta.gear)?;
    match meta.phase {
        Phase::Steady => write!(text, "steady")?,
        Phase::Down(to) => write!(text, "down {to}")?,
        Phase::Up(to) => write!(text, "up {to}")?,
    }
    write!(text, " dirty {} fill {} out ", array.count_dirty(), meta.fill)?;
    match meta.out {
        Out::No => write!(text, "none spins")?,
        Out::Gone(disk) => write!(text, "{disk} gone spins")?,
        Out::Fresh(disk, rebuilt) => write!(text, "{disk} rebuilt {rebuilt} spins")?,
    }
    for spins in &meta.spins[..meta.setup.disks] {
        write!(text, " {spins}")?;
    }
    writeln!(text)
}

fn run() -> io::Result<()> {
    let array = Array::mount()?;
    let mut source = io::stdin().lock();
    // Each write is one call.
    let mut sink = File::from(io::stdout().as_fd().try_clone_to_owned()?);
    sink.write_all(format!("mounted {} gear {}\n", array.meta.writes, array.meta.gear).as_bytes())?;
    let mut server = Server::new(array);
    let mut line = Vec::with_capacity(MAX_LINE + 1);
    loop {
        // A line that stands whole in the buffer is served there.
        let held = source.fill_buf()?;
        if let Some(at) = find(held, b'\n') {
            sink.write_all(server.answer(&held[..at])?)?;
            source.consume(at + 1);
        } else if next_line(&mut source, &mut line)? {
            sink.write_all(server.answer(&line)?)?;
        } else {
            break;
        }
    }
    server.array.flush()?;
    sink.write_all(format!("end {}\n", server.array.meta.writes).as_bytes())
}

fn main() -> ExitCode {
    match run() {
        Ok(()) => ExitCode::SUCCESS,
        Err(error) => {
            eprintln!("plain: {error}");
            ExitCode::from(2)
        }
    }
}
