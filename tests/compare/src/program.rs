//! Runs of the bench program: its input at once or in parts, a stop within its output, and a limit on its time.

use std::fs::File;
use std::io::{Read, Write};
use std::os::fd::{AsRawFd, RawFd};
use std::process::{Child, ChildStdin, Command, Stdio};
use std::thread::{sleep, spawn};
use std::time::{Duration, Instant};

const LIMIT: Duration = Duration::from_secs(20);
/// As many bytes as a pipe takes while nobody reads.
const PIPE: usize = 65536;

extern "C" {
    fn ioctl(fd: i32, request: u64, ...) -> i32;
    fn kill(id: i32, signal: i32) -> i32;
    fn poll(watched: *mut Watched, count: u64, milliseconds: i32) -> i32;
}

/// What `poll` waits for.
#[repr(C)]
struct Watched {
    fd: i32,
    events: i16,
    seen: i16,
}

const POLLIN: i16 = 1;
const FIONREAD: u64 = 0x541b;
const SIGCONT: i32 = 18;
const SIGSTOP: i32 = 19;

/// What the program prints on an input that comes in these parts, each written when the program has read the one before.
pub fn printed(program: &str, parts: &[&[u8]]) -> Result<Vec<u8>, String> {
    let mut child = start(program, Stdio::piped())?;
    let (id, input) = (child.id(), child.stdin.take().unwrap());
    if parts.iter().map(|part| part.len()).sum::<usize>() <= PIPE {
        feed(id, input, parts);
    } else {
        let parts: Vec<Vec<u8>> = parts.iter().map(|part| part.to_vec()).collect();
        spawn(move || feed(id, input, &parts));
    }
    ended(child)
}

/// What it prints if its input is this file.
pub fn printed_from(program: &str, input: File) -> Result<Vec<u8>, String> {
    ended(start(program, Stdio::from(input))?)
}

/// What it prints if it is stopped within its first write and goes on: that write has then taken only the front of a long text.
pub fn printed_with_a_stop(program: &str, input: &[u8]) -> Result<Vec<u8>, String> {
    let mut child = start(program, Stdio::piped())?;
    let id = child.id();
    feed(id, child.stdin.take().unwrap(), &[input]);
    let output = child.stdout.as_ref().unwrap().as_raw_fd();
    let stopped = within_limit(|| waiting(output) > 0 && state(id) == Some('S')) && {
        unsafe { kill(id as i32, SIGSTOP) };
        within_limit(|| state(id) == Some('T'))
    };
    unsafe { kill(id as i32, SIGCONT) };
    let printed = ended(child);
    if stopped { printed } else { Err("it could not be stopped within a write".into()) }
}

fn start(program: &str, input: Stdio) -> Result<Child, String> {
    Command::new(program).stdin(input).stdout(Stdio::piped()).spawn().map_err(|e| format!("{program}: {e}"))
}

/// Writes the parts. A program that has ended, or reads no more, gets no other part.
fn feed<T: AsRef<[u8]>>(id: u32, mut input: ChildStdin, parts: &[T]) {
    for (i, part) in parts.iter().enumerate() {
        let free = || waiting(input.as_raw_fd()) == 0 || state(id) == Some('Z');
        if i > 0 && !within_limit(free) || input.write_all(part.as_ref()).is_err() {
            return;
        }
    }
}

/// All that the program prints up to its end, which must come within the limit and be a success.
fn ended(mut child: Child) -> Result<Vec<u8>, String> {
    let mut output = child.stdout.take().unwrap();
    let (mut text, mut chunk, begin) = (Vec::new(), [0; PIPE], Instant::now());
    loop {
        let rest = LIMIT.saturating_sub(begin.elapsed());
        let mut watched = Watched { fd: output.as_raw_fd(), events: POLLIN, seen: 0 };
        if unsafe { poll(&mut watched, 1, rest.as_millis() as i32) } == 0 {
            child.kill().and_then(|()| child.wait()).map_err(|e| e.to_string())?;
            return Err(format!("no end after {LIMIT:?}"));
        }
        match output.read(&mut chunk).map_err(|e| e.to_string())? {
            0 => break,
            count => text.extend_from_slice(&chunk[..count]),
        }
    }
    let status = child.wait().map_err(|e| e.to_string())?;
    if status.success() { Ok(text) } else { Err(format!("ended with {status}")) }
}

/// How many bytes stand in a pipe.
fn waiting(pipe: RawFd) -> i32 {
    let mut count = 0;
    let status = unsafe { ioctl(pipe, FIONREAD, &mut count as *mut i32) };
    assert_eq!(status, 0, "FIONREAD of a pipe");
    count
}

/// The state letter of a process: S where it sleeps, T where it is stopped, Z where it has ended.
fn state(id: u32) -> Option<char> {
    let text = std::fs::read_to_string(format!("/proc/{id}/stat")).ok()?;
    text.rsplit_once(") ")?.1.chars().next()
}

/// Waits for something, and says whether it came within the limit.
fn within_limit(came: impl Fn() -> bool) -> bool {
    let begin = Instant::now();
    while !came() {
        if begin.elapsed() > LIMIT {
            return false;
        }
        sleep(Duration::from_micros(20));
    }
    true
}
