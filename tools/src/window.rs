//! A task's window: its bytes, and what they say.

use drive_object::WINDOW_BYTES;

use crate::refused;
use crate::reply::Reply;

/// The names of the bytes; the last one has none.
const NAMES: [&str; WINDOW_BYTES - 1] = [
    "operation",
    "command",
    "status",
    "response",
    "refusal",
    "interrupt",
    "mask",
];

/// What the commands ask for.
const COMMANDS: [&str; 4] = ["nothing", "begin", "step", "acknowledge"];

/// The named bits of the status, from bit 0.
const BITS: [&str; 4] = ["busy", "done", "refused", "moved"];
const MOVED: u32 = 3;

/// A byte of a window by its number and its name.
pub fn byte_name(byte: usize) -> String {
    match NAMES.get(byte) {
        Some(name) => format!("byte {byte}, {name}"),
        None => format!("byte {byte}"),
    }
}

/// A row about a task's window: what it is about, what stands there, and what that says.
pub fn row(about: &str, stands: &str, says: &str) -> String {
    let row = format!("{about:<8}  {stands:<23}  {says}");
    row.trim_end().into()
}

fn bit(byte: u8, number: u32) -> bool {
    byte >> number & 1 == 1
}

/// The bytes of a task's window.
#[derive(Clone, Copy, PartialEq, Eq, Debug)]
pub struct Window([u8; WINDOW_BYTES]);

impl Window {
    /// The window of a task, if the windows go so far.
    pub fn of(windows: &[u8], task: usize) -> Option<Window> {
        let bytes = windows.chunks_exact(WINDOW_BYTES).nth(task)?;
        bytes.try_into().ok().map(Window)
    }

    /// The command by its number, and what it asks for.
    pub fn command(&self) -> String {
        let command = self.0[1];
        match COMMANDS.get(usize::from(command)) {
            Some(asked) => format!("command {command}, {asked}"),
            None => format!("command {command}"),
        }
    }

    /// What the last operation that ended has answered.
    pub fn reply(&self) -> Reply {
        Reply {
            response: u64::from(self.0[3]),
            moved: bit(self.0[2], MOVED),
        }
    }

    /// All bytes, with operation, command, status and response in words; and the refusal, if one stands there.
    pub fn rows(&self, task: usize) -> Vec<String> {
        let [operation, _, status, response, refusal, ..] = self.0;
        let (command, status) = (self.standing(), status_words(status));
        let says = format!("operation {operation:<5}  {command:<11}  {status}  response {response}");
        let first = row(&format!("window {task}"), &self.hex(), &says);
        let second = (refusal != 0).then(|| {
            let meaning = format!(
                "last refused command, when taken: {}",
                refused::meaning_of(refusal)
            );
            row("refusal", &refusal.to_string(), &meaning)
        });
        [first].into_iter().chain(second).collect()
    }

    fn hex(&self) -> String {
        self.0.map(|byte| format!("{byte:02x}")).join(" ")
    }

    /// The command that waits to be taken.
    fn standing(&self) -> String {
        match (self.0[1], COMMANDS.get(usize::from(self.0[1]))) {
            (0, _) => "no command".into(),
            (_, Some(asked)) => asked.to_string(),
            (command, None) => format!("command {command}"),
        }
    }

    /// Interrupt and mask, of which bit 0 counts.
    pub fn interrupt(&self) -> String {
        let waits = match bit(self.0[5], 0) {
            true => "interrupt waits",
            false => "no interrupt",
        };
        let masked = match bit(self.0[6], 0) {
            true => "masked",
            false => "not masked",
        };
        format!("{waits:<15}  {masked}")
    }
}

/// Every named bit in its place, with a dash for one that is 0.
fn status_words(status: u8) -> String {
    let word = |(number, name): (u32, &'static str)| {
        let shown = if bit(status, number) { name } else { "-" };
        format!("{shown:<width$}", width = name.len())
    };
    let words: Vec<String> = (0..).zip(BITS).map(word).collect();
    words.join(" ")
}
