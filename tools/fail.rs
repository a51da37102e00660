//! Fails system calls of a program: those of the C library that work on files, one of which fails, is cut
//! short, or loses what it was to keep. `tools/fail-calls` builds it as a library and loads it before the
//! program.
//!
//! FAIL_AT is the number of the call, from 0. FAIL_HOW is what becomes of it: the number of an error, `short`
//! (half of the bytes are read or written), `done` (it does nothing and answers as if it had), or `stop` (the
//! program ends before it). FAIL_TIMES is how often the same call on the same file fails from there on. With
//! FAIL_ON set to 1 each later call on the same file fails too. Where a sync fails, what was written
//! to the file since the last one is lost, and the next one is done; where it is interrupted, nothing is lost.
//!
//! The file FAIL_LOG gets a line for each call: its name and the file.
use std::collections::HashMap;
use std::ffi::{c_char, c_int, c_uint, c_void, CStr, CString};
use std::sync::Mutex;

// SEEK_CUR
const HERE: c_int = 1;
const INTERRUPTED: c_int = 4;
// O_CREAT, and O_WRONLY, O_APPEND and O_CLOEXEC
const MAKES: c_int = 0o100;
const APPENDS: c_int = 0o2002001;
const NEXT: *mut c_void = -1isize as *mut c_void;

unsafe extern "C" {
    fn dlsym(library: *mut c_void, name: *const c_char) -> *mut c_void;
    fn __errno_location() -> *mut c_int;
    fn lseek(file: c_int, by: i64, from: c_int) -> i64;
    fn _exit(status: c_int) -> !;
}

/// The function of the C library that has this name.
macro_rules! real {
    ($name:literal, fn($($kind:ty),*) -> $answer:ty) => {
        std::mem::transmute::<*mut c_void, unsafe extern "C" fn($($kind),*) -> $answer>(dlsym(NEXT, $name.as_ptr()))
    };
}

fn real_open(path: *const c_char, flags: c_int, mode: c_uint) -> c_int {
    unsafe { real!(c"open", fn(*const c_char, c_int, c_uint) -> c_int)(path, flags, mode) }
}

fn real_close(file: c_int) -> c_int {
    unsafe { real!(c"close", fn(c_int) -> c_int)(file) }
}

fn real_read(file: c_int, bytes: *mut u8, count: usize) -> isize {
    unsafe { real!(c"read", fn(c_int, *mut u8, usize) -> isize)(file, bytes, count) }
}

fn real_write(file: c_int, bytes: *const u8, count: usize) -> isize {
    unsafe { real!(c"write", fn(c_int, *const u8, usize) -> isize)(file, bytes, count) }
}

fn real_pread(file: c_int, bytes: *mut u8, count: usize, at: i64) -> isize {
    unsafe { real!(c"pread", fn(c_int, *mut u8, usize, i64) -> isize)(file, bytes, count, at) }
}

fn real_pwrite(file: c_int, bytes: *const u8, count: usize, at: i64) -> isize {
    unsafe { real!(c"pwrite", fn(c_int, *const u8, usize, i64) -> isize)(file, bytes, count, at) }
}

/// What becomes of the call that is to fail.
#[derive(Clone, Copy, PartialEq)]
enum Fate {
    Goes,
    Short,
    Done,
    Stops,
    Fails(c_int),
}

struct State {
    log: c_int,
    at: i64,
    times: i64,
    on: bool,
    how: Fate,
    /// How many calls there were.
    count: i64,
    /// The call that failed first, and its file.
    victim: Option<(String, String)>,
    /// The name of the file of each descriptor.
    names: HashMap<c_int, String>,
    /// What stood in the file of each descriptor where something was written since its last sync.
    unsynced: HashMap<c_int, Vec<(i64, Vec<u8>)>>,
}

static STATE: Mutex<Option<State>> = Mutex::new(None);

fn number(name: &str, otherwise: i64) -> i64 {
    std::env::var(name).ok().and_then(|text| text.parse().ok()).unwrap_or(otherwise)
}

impl State {
    fn new() -> State {
        let how = match std::env::var("FAIL_HOW").as_deref() {
            Ok("short") => Fate::Short,
            Ok("done") => Fate::Done,
            Ok("stop") => Fate::Stops,
            Ok(error) => Fate::Fails(error.parse().unwrap_or(5)),
            Err(_) => Fate::Goes,
        };
        let log = CString::new(std::env::var("FAIL_LOG").unwrap_or_default()).unwrap_or_default();
        let names = [(0, "input"), (1, "output"), (2, "errors")];
        State {
            log: real_open(log.as_ptr(), MAKES | APPENDS, 0o600),
            at: number("FAIL_AT", -1),
            times: number("FAIL_TIMES", 1),
            on: number("FAIL_ON", 0) != 0,
            how,
            count: 0,
            victim: None,
            names: names.iter().map(|(file, name)| (*file, name.to_string())).collect(),
            unsynced: HashMap::new(),
        }
    }

    /// Counts a call and says what becomes of it.
    fn fate(&mut self, call: &str, file: &str) -> Fate {
        let number = self.count;
        self.count += 1;
        let fails = match &self.victim {
            None => self.at == number,
            Some((name, of)) => of == file && (self.on || name == call && number < self.at + self.times),
        };
        let line = format!("{call} {file}\n");
        real_write(self.log, line.as_ptr(), line.len());
        if !fails {
            return Fate::Goes;
        }
        if self.how == Fate::Stops {
            unsafe { _exit(0) };
        }
        if self.victim.is_none() {
            self.victim = Some((call.to_string(), file.to_string()));
        }
        self.how
    }

    fn name_of(&self, file: c_int) -> String {
        self.names.get(&file).cloned().unwrap_or("?".to_string())
    }

    /// Keeps what stands where something is to be written.
    fn keep(&mut self, file: c_int, at: i64, count: usize) {
        let mut old = vec![0; count];
        let Ok(path) = CString::new(format!("/proc/self/fd/{file}")) else {
            return;
        };
        let reader = real_open(path.as_ptr(), 0, 0);
        if 0 <= reader {
            real_pread(reader, old.as_mut_ptr(), count, at);
            real_close(reader);
        }
        self.unsynced.entry(file).or_default().push((at, old));
    }

    /// What was written since the last sync is lost.
    fn lose(&mut self, file: c_int) {
        for (at, old) in self.unsynced.remove(&file).unwrap_or_default().iter().rev() {
            real_pwrite(file, old.as_ptr(), old.len(), *at);
        }
    }
}

/// Does something with what is known of the calls.
fn with<T>(work: impl FnOnce(&mut State) -> T) -> T {
    let mut state = STATE.lock().unwrap();
    work(state.get_or_insert_with(State::new))
}

fn fate_of(call: &str, file: c_int) -> Fate {
    with(|state| {
        let name = state.name_of(file);
        state.fate(call, &name)
    })
}

fn fate_by_path(call: &str, path: *const c_char) -> Fate {
    with(|state| state.fate(call, &name_in(path)))
}

fn name_in(path: *const c_char) -> String {
    unsafe { CStr::from_ptr(path) }.to_string_lossy().into_owned()
}

fn fail(error: c_int) -> c_int {
    unsafe { *__errno_location() = error };
    -1
}

/// Half of so many bytes, but some.
fn half(count: usize) -> usize {
    count.div_ceil(2)
}

#[unsafe(no_mangle)]
extern "C" fn open(path: *const c_char, flags: c_int, mode: c_uint) -> c_int {
    let call = if flags & MAKES == 0 { "open" } else { "create" };
    if let Fate::Fails(error) = fate_by_path(call, path) {
        return fail(error);
    }
    let file = real_open(path, flags, mode);
    if 0 <= file {
        with(|state| state.names.insert(file, name_in(path)));
    }
    file
}

#[unsafe(no_mangle)]
extern "C" fn close(file: c_int) -> c_int {
    let fate = fate_of("close", file);
    with(|state| state.unsynced.remove(&file));
    let answer = real_close(file);
    if let Fate::Fails(error) = fate {
        fail(error)
    } else {
        answer
    }
}

#[unsafe(no_mangle)]
extern "C" fn read(file: c_int, bytes: *mut u8, count: usize) -> isize {
    match fate_of("read", file) {
        Fate::Fails(error) => fail(error) as isize,
        Fate::Short => real_read(file, bytes, half(count)),
        _ => real_read(file, bytes, count),
    }
}

#[unsafe(no_mangle)]
extern "C" fn pread(file: c_int, bytes: *mut u8, count: usize, at: i64) -> isize {
    match fate_of("pread", file) {
        Fate::Fails(error) => fail(error) as isize,
        Fate::Short => real_pread(file, bytes, half(count), at),
        _ => real_pread(file, bytes, count, at),
    }
}

#[unsafe(no_mangle)]
extern "C" fn write(file: c_int, bytes: *const u8, count: usize) -> isize {
    let wanted = match fate_of("write", file) {
        Fate::Fails(error) => return fail(error) as isize,
        Fate::Done => return count as isize,
        Fate::Short => half(count),
        Fate::Goes | Fate::Stops => count,
    };
    if 2 < file {
        let at = unsafe { lseek(file, 0, HERE) };
        with(|state| state.keep(file, at, wanted));
    }
    real_write(file, bytes, wanted)
}

#[unsafe(no_mangle)]
extern "C" fn __write(file: c_int, bytes: *const u8, count: usize) -> isize {
    write(file, bytes, count)
}

#[unsafe(no_mangle)]
extern "C" fn pwrite(file: c_int, bytes: *const u8, count: usize, at: i64) -> isize {
    let wanted = match fate_of("pwrite", file) {
        Fate::Fails(error) => return fail(error) as isize,
        Fate::Done => return count as isize,
        Fate::Short => half(count),
        Fate::Goes | Fate::Stops => count,
    };
    with(|state| state.keep(file, at, wanted));
    real_pwrite(file, bytes, wanted, at)
}

/// What a sync answers instead, where it is not to be done.
fn unsynced(call: &str, file: c_int) -> Option<c_int> {
    let fate = fate_of(call, file);
    if fate == Fate::Fails(INTERRUPTED) {
        return Some(fail(INTERRUPTED));
    }
    with(|state| match fate {
        Fate::Fails(_) | Fate::Done => state.lose(file),
        _ => drop(state.unsynced.remove(&file)),
    });
    match fate {
        Fate::Fails(error) => Some(fail(error)),
        Fate::Done => Some(0),
        _ => None,
    }
}

#[unsafe(no_mangle)]
extern "C" fn fsync(file: c_int) -> c_int {
    unsynced("fsync", file).unwrap_or_else(|| unsafe { real!(c"fsync", fn(c_int) -> c_int)(file) })
}

#[unsafe(no_mangle)]
extern "C" fn fdatasync(file: c_int) -> c_int {
    unsynced("fdatasync", file).unwrap_or_else(|| unsafe { real!(c"fdatasync", fn(c_int) -> c_int)(file) })
}

#[unsafe(no_mangle)]
extern "C" fn ftruncate(file: c_int, length: i64) -> c_int {
    if let Fate::Fails(error) = fate_of("ftruncate", file) {
        return fail(error);
    }
    unsafe { real!(c"ftruncate", fn(c_int, i64) -> c_int)(file, length) }
}

#[unsafe(no_mangle)]
extern "C" fn flock(file: c_int, how: c_int) -> c_int {
    if let Fate::Fails(error) = fate_of("flock", file) {
        return fail(error);
    }
    unsafe { real!(c"flock", fn(c_int, c_int) -> c_int)(file, how) }
}

#[unsafe(no_mangle)]
extern "C" fn rename(old: *const c_char, new: *const c_char) -> c_int {
    if let Fate::Fails(error) = fate_by_path("rename", old) {
        return fail(error);
    }
    unsafe { real!(c"rename", fn(*const c_char, *const c_char) -> c_int)(old, new) }
}

#[unsafe(no_mangle)]
extern "C" fn statx(folder: c_int, path: *const c_char, flags: c_int, mask: c_uint, into: *mut c_void) -> c_int {
    let is_of_file = unsafe { *path } == 0;
    let fate = if is_of_file { fate_of("fstat", folder) } else { fate_by_path("stat", path) };
    if let Fate::Fails(error) = fate {
        return fail(error);
    }
    unsafe {
        real!(c"statx", fn(c_int, *const c_char, c_int, c_uint, *mut c_void) -> c_int)(folder, path, flags, mask, into)
    }
}
