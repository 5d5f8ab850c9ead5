//! A replica for Rust without `unsafe` for who uses it: it is closed when it goes, and a refusal is an `Err`.
//!
//!   rustc --edition 2021 -L release examples/replica.rs -o replica && ./replica
//!
//! The program keeps each operation's line, and stores it before it sends it: see jcrdt.h and store.c.

use std::{ffi::c_void, fmt, ptr};

#[repr(C)]
struct Handle {
    at: *mut c_void,
    is_open: bool,
}

#[repr(C)]
#[derive(Default)]
struct Fault {
    number: u64,
    last: u64,
    place: u64,
}

#[link(name = "jcrdt", kind = "static")]
extern "C" {
    fn jcrdt_open(handle: *mut Handle, name: *const u8, name_length: usize, log: *const u8, log_length: usize, fault: *mut Fault) -> u64;
    fn jcrdt_ask(handle: *mut Handle, request: *const u8, length: usize, out: *mut u8, room: usize) -> usize;
    fn jcrdt_again(handle: *mut Handle, out: *mut u8, room: usize) -> usize;
    fn jcrdt_close(handle: *mut Handle);
}

/// A refusal: nothing was changed. `number` is that of docs/FORMATS.md.
#[derive(Debug)]
pub struct Refused {
    pub number: u64,
    pub why: String,
}

impl fmt::Display for Refused {
    fn fmt(&self, to: &mut fmt::Formatter) -> fmt::Result {
        write!(to, "refused: {}", self.number)
    }
}

impl std::error::Error for Refused {}

/// A reply's line, and the line of the operation that was made, if one was.
pub struct Answer {
    pub reply: String,
    pub operation: String,
}

pub struct Replica(Handle);

// One thread at a time uses a handle, whichever it is: `ask` takes it by `&mut`.
unsafe impl Send for Replica {}

impl Replica {
    /// Opens a new replica, or the one of a log: its lines, each with a newline.
    pub fn open(name: &str, log: &str) -> Result<Replica, Refused> {
        let mut replica = Replica(Handle { at: ptr::null_mut(), is_open: false });
        let mut fault = Fault::default();
        let number = unsafe { jcrdt_open(&mut replica.0, name.as_ptr(), name.len(), log.as_ptr(), log.len(), &mut fault) };
        if number == 0 { Ok(replica) } else { Err(Refused { number, why: format!("line {} of the log", fault.place) }) }
    }

    pub fn ask(&mut self, request: &str) -> Result<Answer, Refused> {
        let mut text = vec![0; 1024];
        let length = unsafe { jcrdt_ask(&mut self.0, request.as_ptr(), request.len(), text.as_mut_ptr(), text.len()) };
        if length > text.len() {
            text.resize(length, 0);
            unsafe { jcrdt_again(&mut self.0, text.as_mut_ptr(), length) };
        }
        text.truncate(length);
        let text = String::from_utf8(text).expect("answers are UTF-8");
        let (reply, operation) = text.split_once('\n').expect("memory lacks for the text");
        if let Some(refusal) = reply.strip_prefix("[\"no\",") {
            let number = refusal.split(',').next().and_then(|it| it.parse().ok()).expect("a refusal has a number");
            return Err(Refused { number, why: reply.to_string() });
        }
        Ok(Answer { reply: reply.to_string(), operation: operation.trim_end().to_string() })
    }
}

impl Drop for Replica {
    fn drop(&mut self) {
        unsafe { jcrdt_close(&mut self.0) }
    }
}

/// Edits, and keeps the operation's line.
fn edit(replica: &mut Replica, log: &mut Vec<String>, request: &str) -> Result<(), Refused> {
    Ok(log.push(replica.ask(request)?.operation))
}

/// Gives the operations of a log to another replica, which takes each once.
fn deliver(replica: &mut Replica, log: &[String]) -> Result<(), Refused> {
    log.iter().try_for_each(|line| replica.ask(&format!("[\"deliver\",{line}]")).map(|_| ()))
}

fn main() -> Result<(), Refused> {
    let (mut log, mut other) = (vec![], vec![]);
    let (mut ada, mut bob) = (Replica::open("ada", "")?, Replica::open("bob", "")?);
    edit(&mut ada, &mut log, r#"["assign",[0,"title"],"Plan"]"#)?;
    edit(&mut ada, &mut log, r#"["assign",[0,"steps"],[]]"#)?;
    edit(&mut ada, &mut log, r#"["insert",[0,"steps",0],"pack"]"#)?;
    deliver(&mut bob, &log)?;
    edit(&mut bob, &mut other, r#"["assign",[0,"title"],"Oslo"]"#)?; // both at once: the title has two values
    edit(&mut ada, &mut log, r#"["assign",[0,"title"],"Bergen"]"#)?;
    deliver(&mut ada, &other)?;
    deliver(&mut bob, &log)?;
    let shown = ada.ask(r#"["show",[0]]"#)?.reply;
    println!("{shown}\n{}", if shown == bob.ask(r#"["show",[0]]"#)?.reply { "both show it" } else { "they differ" });
    if let Err(refused) = ada.ask(r#"["delete",[0,"steps",7]]"#) {
        println!("{refused}");
    }
    Ok(())
}
