//! The loops that are measured. Tasks take turns by whole operations, so no operation meets another.

use std::hint::black_box;
use std::sync::{Mutex, PoisonError};

use crate::load::{Load, What, Who};
use crate::subject::{Library, Second, Subject};
use crate::tables::{table, CHANGING, READING};

/// Makes the load; how many steps, begins or operations it had.
pub fn run(load: &Load) -> u64 {
    match load.who {
        Who::Library => run_subject::<Library>(load),
        Who::Second => run_subject::<Second>(load),
        Who::Mutex => run_mutex(load),
    }
}

fn file_of(load: &Load) -> Vec<u8> {
    table(load.states, load.operations, load.text)
}

fn operation_of(load: &Load) -> usize {
    match load.changing {
        true => CHANGING,
        false => READING,
    }
}

fn run_subject<S: Subject>(load: &Load) -> u64 {
    let mut subject = S::start(file_of(load), load.tasks);
    let operation = operation_of(load);
    match load.what {
        What::Steps => steps(&mut subject, load, operation),
        What::Begins => begins(&mut subject, load, operation),
        What::Operations => operations(&mut subject, load, operation),
    }
}

/// The tasks in turn, so many times.
fn turns(load: &Load) -> impl Iterator<Item = usize> {
    let tasks = load.tasks;
    let mut task = 0;
    (0..load.count).map(move |_| {
        task = if task + 1 < tasks { task + 1 } else { 0 };
        task
    })
}

fn steps<S: Subject>(subject: &mut S, load: &Load, operation: usize) -> u64 {
    let mut made = 0;
    for task in turns(load) {
        subject.put_begun(task, operation, load.changing);
        made += 1;
        while !subject.step(task) {
            made += 1;
        }
    }
    made
}

fn begins<S: Subject>(subject: &mut S, load: &Load, operation: usize) -> u64 {
    for task in turns(load) {
        subject.begin(task, operation);
        subject.put_idle(task);
    }
    load.count
}

fn operations<S: Subject>(subject: &mut S, load: &Load, operation: usize) -> u64 {
    for task in turns(load) {
        subject.begin(task, operation);
        while !subject.step(task) {}
    }
    load.count
}

/// A table whose state is behind a mutex: an operation takes the lock, looks up its entry and stores the next state.
struct Locked {
    entries: Vec<(u8, u8)>,
    operations: usize,
    state: Mutex<u8>,
}

impl Locked {
    fn operate(&self, operation: usize) -> u8 {
        let mut state = self.state.lock().unwrap_or_else(PoisonError::into_inner);
        let (next, response) = self.entries[usize::from(*state) * self.operations + operation];
        *state = next;
        response
    }
}

fn run_mutex(load: &Load) -> u64 {
    let file = file_of(load);
    let entries = &file[load.text..file.len() - 16];
    let locked = Locked {
        entries: entries.chunks_exact(2).map(|pair| (pair[0], pair[1])).collect(),
        operations: usize::from(load.operations),
        state: Mutex::new(0),
    };
    for _ in 0..load.count {
        black_box(locked.operate(black_box(operation_of(load))));
    }
    load.count
}
