//! Runs in which some tasks work through their windows and others are called directly, for the comparison with a twin that
//! makes the direct calls alone.

use crate::file_calls;
use crate::objects::explored_files;
use crate::random::Random;
use crate::record::Record;
use crate::table::Table;
use crate::table_cases::random_table;
use crate::window::{
    has, serve_window, window_at, ACKNOWLEDGE, BEGIN, BUSY, COMMAND, DONE, MASK, OPERATION, REFUSED, STEP,
    WINDOW_BYTES,
};
use crate::window_twin::{direct_call, Call};

/// What happens in a run: a byte of the windows is written, or a call is made.
#[derive(Clone, Copy, Debug, PartialEq, Eq)]
pub enum Event {
    Written { place: usize, byte: u8 },
    Window { task: usize },
    Begin { task: usize, operation: usize },
    Step { task: usize },
}

impl Event {
    /// The direct call that the event is or makes, if it makes one; `windows` are those before it.
    pub fn direct_call(self, windows: &[u8], tasks: usize) -> Option<Call> {
        match self {
            Event::Written { .. } => None,
            Event::Window { task } => direct_call(windows, tasks, task),
            Event::Begin { task, operation } => Some(Call::Begin { task, operation }),
            Event::Step { task } => Some(Call::Step { task }),
        }
    }
}

/// The events after an accepted start of a good file.
pub struct Run {
    pub file: Vec<u8>,
    pub tasks: usize,
    /// The windows at the start.
    pub windows: Vec<u8>,
    /// The tasks whose window is 0 at the start, is written in its operation, command and mask alone, and that are never
    /// called directly.
    pub consoles: Vec<usize>,
    pub events: Vec<Event>,
}

/// How many runs there are.
pub const RUNS: u64 = 600;

pub fn runs() -> impl Iterator<Item = Run> {
    (0..RUNS).map(run)
}

/// How a task works.
#[derive(Clone, Copy, PartialEq)]
enum Role {
    /// Through its window, by the rules.
    Console,
    /// Through its window, but its window is also written elsewhere, and it is called directly too.
    Wild,
    /// By direct calls.
    Direct,
}

/// A run; the seed alone decides it.
pub fn run(seed: u64) -> Run {
    let mut random = Random::new(seed);
    let file = run_file(&mut random);
    let tasks = random.between(1, 8);
    let roles = (0..tasks).map(|_| *random.pick(&[Role::Console, Role::Wild, Role::Direct]));
    let roles = Vec::from_iter(roles);
    let consoles = Vec::from_iter((0..tasks).filter(|&task| roles[task] == Role::Console));
    let mut windows = random.bytes(WINDOW_BYTES * tasks);
    for &task in &consoles {
        windows[WINDOW_BYTES * task..][..WINDOW_BYTES].fill(0);
    }
    let mut site = Site::new(random, Store::started(&file, &windows), roles);
    let turns = tasks * site.random.between(20, 120);
    site.make_turns(turns);
    Run {
        file,
        tasks,
        windows,
        consoles,
        events: site.events,
    }
}

/// One of four small objects, or any good table.
fn run_file(random: &mut Random) -> Vec<u8> {
    match random.chance(2, 3) {
        true => random.pick(&explored_files()).to_bytes(),
        false => random_table(random).to_bytes(),
    }
}

/// The file with all that a run changes.
pub struct Store {
    pub file: Vec<u8>,
    pub cells: Vec<u64>,
    pub row: Vec<Record>,
    pub windows: Vec<u8>,
}

impl Store {
    pub fn started(file: &[u8], windows: &[u8]) -> Store {
        let tasks = windows.len() / WINDOW_BYTES;
        let mut store = Store {
            file: file.to_vec(),
            cells: vec![0; tasks + 1],
            row: vec![Record::default(); tasks],
            windows: windows.to_vec(),
        };
        file_calls::start(&store.file, &mut store.cells, &mut store.row).expect("the file is good");
        store
    }

    pub fn make(&mut self, event: Event) {
        let Store {
            file,
            cells,
            row,
            windows,
        } = self;
        // Refused calls are part of the run.
        let _ = match event {
            Event::Written { place, byte } => {
                windows[place] = byte;
                Ok(())
            }
            Event::Window { task } => serve_window(file, cells, row, windows, task),
            Event::Begin { task, operation } => file_calls::begin(file, row, task, operation),
            Event::Step { task } => file_calls::step(file, cells, row, task).map(|_| ()),
        };
    }
}

/// The store of a run, and who makes what happens there.
struct Site {
    random: Random,
    store: Store,
    operations: usize,
    roles: Vec<Role>,
    events: Vec<Event>,
}

impl Site {
    fn new(random: Random, store: Store, roles: Vec<Role>) -> Site {
        let table = Table::check(&store.file).expect("the file is good");
        Site {
            random,
            operations: table.operations,
            store,
            roles,
            events: Vec::new(),
        }
    }

    fn happens(&mut self, event: Event) {
        self.store.make(event);
        self.events.push(event);
    }

    /// Tasks have some turns one after another, most of them one or two.
    fn make_turns(&mut self, turns: usize) {
        let mut made = 0;
        while made < turns {
            let task = self.random.below(self.roles.len());
            let most = *self.random.pick(&[1, 1, 2, 5, 40]);
            let burst = self.random.between(1, most);
            for _ in 0..burst {
                self.turn(task);
            }
            made += burst;
        }
    }

    fn turn(&mut self, task: usize) {
        match self.roles[task] {
            Role::Console if self.random.chance(1, 8) => self.odd_console_turn(task),
            Role::Console => self.console_turn(task),
            Role::Wild => match self.random.below(4) {
                0 => self.wild_turn(task),
                1 => self.direct_turn(task),
                _ => self.console_turn(task),
            },
            Role::Direct if self.random.chance(1, 16) => self.odd_direct_turn(task),
            Role::Direct => self.direct_turn(task),
        }
    }

    fn write(&mut self, task: usize, byte: usize, content: u8) {
        let place = WINDOW_BYTES * task + byte;
        self.happens(Event::Written { place, byte: content });
    }

    /// The console writes a command, and its window call is made.
    fn command(&mut self, task: usize, command: u8) {
        self.write(task, COMMAND, command);
        self.happens(Event::Window { task });
    }

    /// The console acknowledges what waits, goes on with its operation, or begins one. Sometimes it forgets the first.
    fn console_turn(&mut self, task: usize) {
        let window = window_at(&self.store.windows, self.roles.len(), task).expect("the task has a window");
        if has(&window, DONE | REFUSED) && !self.random.chance(1, 12) {
            self.command(task, ACKNOWLEDGE);
        } else if has(&window, BUSY) {
            self.command(task, STEP);
        } else {
            let operation = self.random.below(self.operations) as u8;
            self.write(task, OPERATION, operation);
            self.command(task, BEGIN);
        }
    }

    /// The console writes where it may, and what it likes.
    fn odd_console_turn(&mut self, task: usize) {
        let content = self.random.byte();
        match self.random.below(7) {
            0 => self.write(task, MASK, content),
            1 => self.write(task, OPERATION, content),
            2 => self.command(task, content),
            3 => self.happens(Event::Window { task }),
            4 => self.write(task, COMMAND, content % 4),
            5 => self.command(task, BEGIN),
            _ => self.command(task, STEP),
        }
    }

    /// Any byte of a window that is no console's is written, then its window call is made or not.
    fn wild_turn(&mut self, task: usize) {
        let other = self.random.below(self.roles.len());
        let written = match self.roles[other] {
            Role::Console => task,
            _ => other,
        };
        let (byte, content) = (self.random.below(WINDOW_BYTES), self.random.byte());
        self.write(written, byte, content);
        if self.random.chance(1, 2) {
            self.happens(Event::Window { task: written });
        }
    }

    fn direct_turn(&mut self, task: usize) {
        let operation = self.random.below(self.operations);
        let event = match self.store.row[task].is_pending() {
            true => Event::Step { task },
            false => Event::Begin { task, operation },
        };
        self.happens(event);
    }

    /// A call of a task that is none, or one that does not suit what the task is doing.
    fn odd_direct_turn(&mut self, task: usize) {
        let operation = self.random.below(self.operations + 2);
        let none = self.roles.len() + self.random.below(2);
        let task = *self.random.pick(&[task, none]);
        let events = [
            Event::Window { task },
            Event::Begin { task, operation },
            Event::Step { task },
        ];
        let event = *self.random.pick(&events);
        self.happens(event);
    }
}

#[cfg(test)]
mod tests {
    use super::*;

    /// What a run says of its consoles is so.
    #[test]
    fn consoles_keep_to_the_rules() {
        for run in runs() {
            let is_console = |task: usize| run.consoles.contains(&task);
            for &task in &run.consoles {
                assert_eq!(run.windows[WINDOW_BYTES * task..][..WINDOW_BYTES], [0; 8]);
            }
            for &event in &run.events {
                match event {
                    Event::Written { place, .. } if is_console(place / WINDOW_BYTES) => {
                        assert!([0, 1, 6].contains(&(place % WINDOW_BYTES)));
                    }
                    Event::Begin { task, .. } | Event::Step { task } => assert!(!is_console(task)),
                    _ => {}
                }
            }
        }
    }

    #[test]
    fn runs_have_every_number_of_tasks_and_all_ways_to_work() {
        let events: usize = runs().map(|run| run.events.len()).sum();
        assert!(events > 200_000);
        for tasks in 1..=8 {
            let runs = Vec::from_iter(runs().filter(|run| run.tasks == tasks));
            assert!(runs.len() > 50);
            let with_consoles = runs.iter().filter(|run| !run.consoles.is_empty()).count();
            let with_others = runs.iter().filter(|run| run.consoles.len() < tasks).count();
            assert!(with_consoles > 15 && with_others > 30, "{tasks} tasks");
        }
    }
}
