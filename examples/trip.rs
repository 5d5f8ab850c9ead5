//! A plan that works offline, as that of trip.c, and over the same files: a replica by replica.rs, its operations in a file by store.c.
//!
//!   cc -c examples/store.c -o store.o
//!   rustc --edition 2021 -L release -C link-arg=store.o examples/trip.rs -o trip
//!   ./trip ada ada.ops set title Oslo        (assigns a text to a key)
//!   ./trip ada ada.ops add pack              (inserts a text first in the list `steps`)
//!   ./trip ada ada.ops take bob.ops          (takes what another one has stored)
//!   ./trip ada ada.ops                       (shows the document)
//!
//! The first word is the replica's name: no other file may have it. A copy of this one, or an older one, goes on under a new name by
//! remake.c. One program at a time has the file: another one waits for it, up to 10 seconds.

use std::error::Error;
use std::ffi::{c_void, CStr, CString};
use std::os::raw::{c_char, c_int, c_uint};
use std::{env, fs, io, process, ptr};

#[allow(dead_code)]
#[path = "replica.rs"]
mod replica;
use replica::{Refused, Replica};

const USAGE: &str = "usage: trip NAME FILE [set KEY TEXT | add TEXT | take FILE]";
const WAIT_SECONDS: c_int = 10;
const STORE_BUSY: c_uint = 1;

#[repr(C)]
struct File {
    file: c_int,
    size: usize,
}

extern "C" {
    fn store_open(store: *mut File, path: *const c_char, seconds: c_int) -> c_uint;
    fn store_read(store: *mut File) -> *mut c_char;
    fn store_append(store: *mut File, lines: *const c_char, count: usize) -> c_int;
    fn store_close(store: *mut File);
    fn free(text: *mut c_void);
}

/// The file of a replica, which is locked until it goes. store.h says what each call does.
pub struct Store(File);

impl Store {
    /// Opens a file. Waits for another program that has it: then the error is `WouldBlock`.
    pub fn open(path: &str) -> io::Result<Store> {
        let (mut store, name) = (Store(File { file: -1, size: 0 }), CString::new(path)?);
        match unsafe { store_open(&mut store.0, name.as_ptr(), WAIT_SECONDS) } {
            0 => Ok(store),
            STORE_BUSY => Err(io::Error::new(io::ErrorKind::WouldBlock, "another program has it open")),
            _ => Err(io::Error::last_os_error()),
        }
    }

    /// The whole lines of the file. A last line that a crash cut off is cut from it.
    pub fn read(&mut self) -> io::Result<String> {
        let text = unsafe { store_read(&mut self.0) };
        if text == ptr::null_mut() {
            return Err(io::Error::last_os_error());
        }
        let lines = unsafe { CStr::from_ptr(text) }.to_owned();
        unsafe { free(text.cast()) };
        lines.into_string().map_err(|why| io::Error::new(io::ErrorKind::InvalidData, why))
    }

    /// Appends a line, and returns once it is on disk: send the operation then.
    pub fn append(&mut self, line: &str) -> io::Result<()> {
        let line = format!("{line}\n");
        let is_done = unsafe { store_append(&mut self.0, line.as_ptr().cast(), line.len()) } == 1;
        if is_done { Ok(()) } else { Err(io::Error::last_os_error()) }
    }
}

impl Drop for Store {
    fn drop(&mut self) {
        unsafe { store_close(&mut self.0) }
    }
}

/// A text as JSON writes it.
fn quoted(text: &str) -> String {
    let escaped = |it: char| if it < ' ' || it == '"' || it == '\\' { format!("\\u{:04x}", it as u32) } else { it.to_string() };
    format!("\"{}\"", text.chars().map(escaped).collect::<String>())
}

/// Makes a change, and stores its operation.
fn change(replica: &mut Replica, store: &mut Store, request: &str) -> Result<(), Box<dyn Error>> {
    Ok(store.append(&replica.ask(request)?.operation)?)
}

/// Delivers each whole line of another's file. Stored is what was logged: what was known or is refused wasn't. These come in the order of
/// their log, so none waits for another. If one does, it is forgotten, and taken another time.
fn take(replica: &mut Replica, store: &mut Store, path: &str) -> Result<(), Box<dyn Error>> {
    for line in fs::read_to_string(path)?.split_inclusive('\n').filter_map(|it| it.strip_suffix('\n')) {
        match replica.ask(&format!("[\"deliver\",{line}]")) {
            Ok(answer) if answer.reply.starts_with("[\"applied\"") => store.append(line)?,
            Ok(answer) if answer.reply.starts_with("[\"held\"") => forget(replica, line)?,
            Err(Refused { number: 14..=16, .. }) => {
                return Err(format!("it has other operations of one id, see remake.c; what is behind them isn't taken: {path}").into());
            }
            Err(refused) => println!("{}", refused.why),
            Ok(_) => {}
        }
    }
    Ok(())
}

/// Drops an operation that is held. Its id is behind `["op",`.
fn forget(replica: &mut Replica, line: &str) -> Result<(), Refused> {
    let id = line.get(6..).and_then(|it| it.split_inclusive(']').next()).unwrap_or("");
    replica.ask(&format!("[\"forget\",{id}]")).map(|_| ())
}

fn run(words: &[&str]) -> Result<(), Box<dyn Error>> {
    let (name, path, word) = match words {
        ["--help"] => return Ok(println!("{USAGE}")),
        [name, path, word @ ..] if !name.starts_with('-') && !path.starts_with('-') => (name, path, word),
        _ => return Err(USAGE.into()),
    };
    let mut store = Store::open(path).map_err(|why| format!("{why}: {path}"))?;
    let lines = store.read().map_err(|why| format!("{why}: {path}"))?;
    let mut replica = Replica::open(name, &lines).map_err(|why| format!("{why}, {}: {path}", why.why))?;
    match word {
        ["set", key, text] => change(&mut replica, &mut store, &format!("[\"assign\",[0,{}],{}]", quoted(key), quoted(text))),
        ["add", text] => change(&mut replica, &mut store, &format!("[\"insert\",[0,\"steps\",0],{}]", quoted(text))),
        ["take", other] => take(&mut replica, &mut store, other),
        [] => Ok(println!("{}", replica.ask("[\"show\",[0]]")?.reply)),
        _ => Err(USAGE.into()),
    }
}

fn main() {
    let words: Vec<String> = env::args().skip(1).collect();
    if let Err(why) = run(&words.iter().map(String::as_str).collect::<Vec<_>>()) {
        eprintln!("trip: {why}");
        process::exit(1);
    }
}
