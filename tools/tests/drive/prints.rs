//! The prints of a story, each with what was told before it.

use reference::table::Table;

/// What a task does by the begins, steps and ends that were told.
#[derive(Clone, Copy, PartialEq, Debug)]
pub enum Doing {
    Nothing,
    Reading,
    Changing {
        operation: usize,
        steps: usize,
        stage: Stage,
    },
}

/// How far a changing operation has come.
#[derive(Clone, Copy, PartialEq, Debug)]
pub enum Stage {
    Begun,
    /// It has been applied.
    Made,
    /// It has been applied, and then its response was handed over to it.
    Answered,
}

/// A print, what is said to follow from it, and what was told before it.
#[derive(Clone, Default, Debug)]
pub struct Print {
    /// The lines of the cells.
    pub cells: Vec<String>,
    /// The states that are said to be reached.
    pub states: Vec<usize>,
    /// The tasks that are said to have a changing operation pending, with the reasons.
    pub pending: Vec<(usize, String)>,
    /// The tasks of which there is said to be no trace.
    pub others: Vec<usize>,
    /// For each task what it does.
    pub doing: Vec<Doing>,
    /// The state to which the operations lead that were applied, in their order.
    pub reached: usize,
}

/// Follows a story line by line.
struct Reader<'a> {
    table: Table<'a>,
    doing: Vec<Doing>,
    reached: usize,
    /// The print that is being told.
    print: Print,
}

impl Reader<'_> {
    /// Takes an event.
    fn take(&mut self, line: &str) {
        let words: Vec<&str> = line.split(' ').filter(|word| !word.is_empty()).collect();
        match words.as_slice() {
            ["started:", "tasks", tasks, .., state] => {
                self.doing = vec![Doing::Nothing; number(tasks)];
                self.reached = number(state);
            }
            ["task", task, "begins", "operation", operation, kind] => {
                self.doing[number(task)] = begun(number(operation), kind);
            }
            ["task", task, "step", _, "Apply", helped, "swap", "head", _, "->", ..] => {
                self.step(number(task));
                self.apply(number(helped));
            }
            ["task", task, "step", _, "HandOver", helped, "swap", "announcement", _, _, "->", ..] => {
                self.step(number(task));
                self.hand_over(number(helped));
            }
            ["task", task, "step", ..] => self.step(number(task)),
            ["task", task, "ends", ..] => self.doing[number(task)] = Doing::Nothing,
            ["head" | "announcement", ..] => self.print.cells.push(line.into()),
            ["it", "follows:", "task", task, "has", "a", "changing", "operation", "pending:", reasons @ ..] =>
            {
                self.print.pending.push((number(task), reasons.join(" ")));
            }
            ["it", "follows:", "the", "operations", "made", "so", "far", "lead", "to", "state", state] => {
                self.print.states.push(number(state));
            }
            ["no", "trace", "of", "task" | "tasks", words @ ..] => self.print.others.extend(numbers(words)),
            _ => {}
        }
    }

    fn step(&mut self, task: usize) {
        if let Doing::Changing { steps, .. } = &mut self.doing[task] {
            *steps += 1;
        }
    }

    /// The operation of a task joins the order.
    fn apply(&mut self, task: usize) {
        let Doing::Changing { operation, stage, .. } = &mut self.doing[task] else {
            panic!("an operation that is applied is pending");
        };
        assert_eq!(*stage, Stage::Begun, "an operation is applied once");
        *stage = Stage::Made;
        let entry = self.table.entry(self.reached, *operation);
        self.reached = usize::from(entry.next);
    }

    /// The operation of a task, which has been applied, gets its response.
    fn hand_over(&mut self, task: usize) {
        let Doing::Changing { stage, .. } = &mut self.doing[task] else {
            panic!("an operation that is answered is pending");
        };
        assert_eq!(*stage, Stage::Made, "an operation is answered once, when applied");
        *stage = Stage::Answered;
    }

    /// The print that was told, which is complete.
    fn printed(&mut self) -> Print {
        Print {
            doing: self.doing.clone(),
            reached: self.reached,
            ..std::mem::take(&mut self.print)
        }
    }
}

fn begun(operation: usize, kind: &str) -> Doing {
    match kind {
        "changing" => Doing::Changing {
            operation,
            steps: 0,
            stage: Stage::Begun,
        },
        "reading" => Doing::Reading,
        _ => panic!("begun as {kind}"),
    }
}

/// A number, whatever stands behind it.
fn number(word: &str) -> usize {
    let digits = word.trim_end_matches([',', ':']);
    digits.parse().expect("a number")
}

/// Numbers up to the one with a colon.
fn numbers<'a>(words: &'a [&str]) -> impl Iterator<Item = usize> + 'a {
    let last = words.iter().position(|word| word.ends_with(':'));
    words[..=last.expect("a colon")].iter().map(|word| number(word))
}

/// All prints of the story of a table.
pub fn prints(table: &[u8], told: &str) -> Vec<Print> {
    let mut reader = Reader {
        table: Table::check(table).expect("a table with a story"),
        doing: Vec::new(),
        reached: 0,
        print: Print::default(),
    };
    let mut prints = Vec::new();
    for line in told.lines() {
        match (line.strip_prefix("  "), line.starts_with("< m ")) {
            (Some(event), _) => reader.take(event),
            (None, true) => prints.push(reader.printed()),
            (None, false) => {}
        }
    }
    prints
}
