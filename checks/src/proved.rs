//! The proved control: the functions of the static library, and the two programs.

use crate::plain::Refused;
use crate::plain::work::Machine;
use std::io::Write;
use std::path::{Path, PathBuf};
use std::process::{Command, Stdio};

unsafe extern "C" {
    fn mill_say(nodes: *const i64, nodes_len: usize, room: *mut i64, room_len: usize, place: *mut u64) -> u64;

    fn mill_happen(
        change: u64,
        top: u64,
        targets: *const i64,
        targets_len: usize,
        memory: *mut i64,
        memory_len: usize,
        kind: u64,
        number: u64,
        moved: *mut i64,
        place: *mut u64,
    ) -> u64;

    fn mill_run(
        change: u64,
        top: u64,
        nodes: *const i64,
        nodes_len: usize,
        most: u64,
        count: u64,
        moved: *mut i64,
        at: *mut u64,
    ) -> u64;
}

/// The targets that a program says, written into the room: how many, or the refusal.
pub fn say(nodes: &[i64], room: &mut [i64]) -> Result<u64, Refused> {
    let mut place = [0u64];
    // SAFETY: each pointer goes with the length of its slice, and the slices don't overlap.
    let code = unsafe { mill_say(nodes.as_ptr(), nodes.len(), room.as_mut_ptr(), room.len(), place.as_mut_ptr()) };
    if code == 0 { Ok(place[0]) } else { Err(Refused(code, place[0])) }
}

/// One event on the memory: the pulses, or the refusal.
#[inline]
pub fn happen(
    machine: Machine,
    targets: &[i64],
    memory: &mut [i64],
    kind: u64,
    number: u64,
    moved: &mut [i64; 2],
) -> Result<(), Refused> {
    let mut place = [0u64];
    // SAFETY: each pointer goes with the length of its slice or array, and these don't overlap.
    let code = unsafe {
        mill_happen(
            machine.change,
            machine.top,
            targets.as_ptr(),
            targets.len(),
            memory.as_mut_ptr(),
            memory.len(),
            kind,
            number,
            moved.as_mut_ptr(),
            place.as_mut_ptr(),
        )
    };
    if code == 0 { Ok(()) } else { Err(Refused(code, place[0])) }
}

/// A program loaded and run for so many ticks: where it is then.
pub fn run(machine: Machine, nodes: &[i64], most: u64, count: u64) -> Result<[i64; 2], Refused> {
    let (mut moved, mut at) = ([0; 2], [0]);
    // SAFETY: the first pointer goes with the length of its slice, and the others are to arrays of two and one.
    let code = unsafe {
        let (numbers, length) = (nodes.as_ptr(), nodes.len());
        mill_run(machine.change, machine.top, numbers, length, most, count, moved.as_mut_ptr(), at.as_mut_ptr())
    };
    if code == 0 { Ok(moved) } else { Err(Refused(code, at[0])) }
}

/// A program that reads standard input and writes standard output.
pub struct Program {
    path: PathBuf,
}

/// What a program answered.
#[derive(Clone, PartialEq, Eq, Debug)]
pub struct Answer {
    pub status: Option<i32>,
    pub out: Vec<u8>,
    pub err: Vec<u8>,
}

impl Program {
    /// The program of this name, if it was built.
    pub fn find(folder: &Path, name: &str) -> Option<Program> {
        let path = folder.join(name);
        path.exists().then_some(Program { path })
    }

    pub fn run(&self, input: &[u8]) -> std::io::Result<Answer> {
        let mut child =
            Command::new(&self.path).stdin(Stdio::piped()).stdout(Stdio::piped()).stderr(Stdio::piped()).spawn()?;
        let mut stdin = child.stdin.take().expect("standard input is piped");
        let output = std::thread::scope(|scope| {
            // A program that refuses early may not read all of it.
            scope.spawn(move || stdin.write_all(input).ok());
            child.wait_with_output()
        })?;
        Ok(Answer { status: output.status.code(), out: output.stdout, err: output.stderr })
    }
}
