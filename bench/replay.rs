// Makes the calls of a recorded run once more, in its order and on files of the same names, and writes
// the answers that it wrote: what any program costs that makes these calls and says this text.
//
//     replay list < STRACE > LIST     the list of what strace saw
//     replay run LIST < TRACE         makes its calls in the current folder
//     replay read LIST                only reads the list, which is a part of what `run` costs
use std::fs::{self, File, OpenOptions};
use std::io::{self, BufRead, BufReader, BufWriter, Read, Write};
use std::os::fd::AsFd;
use std::os::unix::fs::FileExt;
use std::{env, str};

// A call: its kind, its descriptor, a place or size, and the bytes that it carries or how many it asks for.
struct Call {
    kind: u8,
    file: u8,
    at: u64,
    length: u32,
}

const HEAD: usize = 14;

impl Call {
    fn head(&self) -> [u8; HEAD] {
        let mut head = [0; HEAD];
        head[0] = self.kind;
        head[1] = self.file;
        head[2..10].copy_from_slice(&self.at.to_le_bytes());
        head[10..].copy_from_slice(&self.length.to_le_bytes());
        head
    }

    fn of(head: &[u8; HEAD]) -> Call {
        Call {
            kind: head[0],
            file: head[1],
            at: u64::from_le_bytes(head[2..10].try_into().unwrap()),
            length: u32::from_le_bytes(head[10..].try_into().unwrap()),
        }
    }
}

// The bytes of a text as strace -xx prints it.
fn bytes_of(text: &str) -> Vec<u8> {
    text.split("\\x").skip(1).map(|digits| u8::from_str_radix(digits, 16).unwrap()).collect()
}

// A line of strace: a call, its words, the texts among them, and what came of it.
struct Seen<'a> {
    name: &'a str,
    words: &'a str,
    texts: Vec<Vec<u8>>,
    result: u64,
}

// The call of a line, if it tells one that was done.
fn seen(line: &str) -> Option<Seen<'_>> {
    let (name, rest) = line.split_once('(')?;
    let (words, result) = rest.rsplit_once(" = ")?;
    let result = result.split(' ').next().unwrap().parse().ok()?;
    let words = words.trim_end().trim_end_matches(')');
    let texts = words.split('"').skip(1).step_by(2).map(bytes_of).collect();
    Some(Seen { name, words, texts, result })
}

impl Seen<'_> {
    // The number that stands so many words before the last.
    fn number(&self, from_end: usize) -> u64 {
        self.words.rsplit(", ").nth(from_end).unwrap().parse().unwrap()
    }

    // The call with the bytes that it carries. What is opened elsewhere than in the folder is left out.
    fn call(&self, opened: &mut [bool; 256]) -> Option<(Call, Vec<u8>)> {
        match self.name {
            "openat" => self.opening(opened),
            "rename" => {
                let names = [&self.texts[0][..], b"\n", &self.texts[1][..]].concat();
                Some((Call { kind: b'n', file: 0, at: 0, length: names.len() as u32 }, names))
            }
            _ => {
                let file = self.words.split(',').next().unwrap().parse::<u8>().unwrap();
                if opened[file as usize] { self.call_on(file, opened) } else { None }
            }
        }
    }

    fn opening(&self, opened: &mut [bool; 256]) -> Option<(Call, Vec<u8>)> {
        let name = &self.texts[0];
        if name.contains(&b'/') {
            return None;
        }
        opened[self.result as usize] = true;
        let flags = self.words.rsplit('"').next().unwrap();
        // read, write, create, truncate
        let at = u64::from(!flags.contains("O_WRONLY"))
            | u64::from(!flags.contains("O_RDONLY")) << 1
            | u64::from(flags.contains("O_CREAT")) << 2
            | u64::from(flags.contains("O_TRUNC")) << 3;
        Some((Call { kind: b'o', file: self.result as u8, at, length: name.len() as u32 }, name.clone()))
    }

    // A call on a file that was opened here.
    fn call_on(&self, file: u8, opened: &mut [bool; 256]) -> Option<(Call, Vec<u8>)> {
        let text = || self.texts[0].clone();
        let (kind, at, asked, data) = match self.name {
            "fcntl" if self.words.contains("F_DUPFD") => {
                opened[self.result as usize] = true;
                return Some((Call { kind: b'f', file: self.result as u8, at: file.into(), length: 0 }, Vec::new()));
            }
            "read" => (b'R', 0, self.number(0), Vec::new()),
            "pread64" => (b'r', self.number(0), self.number(1), Vec::new()),
            "write" => (b'W', 0, self.texts[0].len() as u64, text()),
            "pwrite64" => (b'w', self.number(0), self.texts[0].len() as u64, text()),
            "fdatasync" => (b'd', 0, 0, Vec::new()),
            "fsync" => (b's', 0, 0, Vec::new()),
            "ftruncate" => (b't', self.number(0), 0, Vec::new()),
            "close" => (b'c', 0, 0, Vec::new()),
            _ => return None,
        };
        opened[file as usize] = kind != b'c';
        Some((Call { kind, file, at, length: asked as u32 }, data))
    }
}

// The calls that strace saw, as a list.
fn list() -> io::Result<()> {
    let mut to = BufWriter::new(io::stdout().lock());
    let mut opened = [false; 256];
    (opened[0], opened[1]) = (true, true);
    for line in BufReader::new(io::stdin().lock()).lines() {
        if let Some((call, data)) = seen(&line?).and_then(|seen| seen.call(&mut opened)) {
            to.write_all(&call.head())?;
            to.write_all(&data)?;
        }
    }
    to.flush()
}

fn run(name: &str, is_made: bool) -> io::Result<()> {
    let mut list = BufReader::with_capacity(1 << 16, File::open(name)?);
    let mut files: Vec<Option<File>> = (0..256).map(|_| None).collect();
    files[0] = Some(File::from(io::stdin().as_fd().try_clone_to_owned()?));
    files[1] = Some(File::from(io::stdout().as_fd().try_clone_to_owned()?));
    let mut data = Vec::new();
    let mut head = [0; HEAD];
    while list.read_exact(&mut head).is_ok() {
        let call = Call::of(&head);
        if data.len() < call.length as usize {
            data.resize(call.length as usize, 0);
        }
        let room = &mut data[..call.length as usize];
        if b"onWw".contains(&call.kind) {
            list.read_exact(room)?;
        }
        if is_made {
            make(&call, room, &mut files)?;
        }
    }
    Ok(())
}

// Makes a call. `room` has the bytes that it carries, or takes those that it asks for.
fn make(call: &Call, room: &mut [u8], files: &mut [Option<File>]) -> io::Result<()> {
    match call.kind {
        b'o' => {
            let mut options = OpenOptions::new();
            options.read(call.at & 1 > 0).write(call.at & 2 > 0);
            options.create(call.at & 4 > 0).truncate(call.at & 8 > 0);
            files[call.file as usize] = Some(options.open(str::from_utf8(room).unwrap())?);
        }
        b'c' => files[call.file as usize] = None,
        b'f' => files[call.file as usize] = Some(files[call.at as usize].as_ref().unwrap().try_clone()?),
        b'n' => {
            let (old, new) = str::from_utf8(room).unwrap().split_once('\n').unwrap();
            fs::rename(old, new)?;
        }
        _ => make_on(files[call.file as usize].as_ref().unwrap(), call, room)?,
    }
    Ok(())
}

fn make_on(mut file: &File, call: &Call, room: &mut [u8]) -> io::Result<()> {
    match call.kind {
        b'R' => file.read(room).map(drop),
        b'r' => file.read_exact_at(room, call.at),
        b'W' => file.write_all(room),
        b'w' => file.write_all_at(room, call.at),
        b'd' => file.sync_data(),
        b's' => file.sync_all(),
        _ => file.set_len(call.at),
    }
}

fn main() -> io::Result<()> {
    let words: Vec<String> = env::args().collect();
    match words[1].as_str() {
        "list" => list(),
        word => run(&words[2], word == "run"),
    }
}
