//! One thing to measure, and its form as words of a command line.

/// Who is measured.
#[derive(Clone, Copy, Debug, PartialEq, Eq)]
pub enum Who {
    Library,
    Second,
    Mutex,
}

/// What is made again and again.
#[derive(Clone, Copy, Debug, PartialEq, Eq)]
pub enum What {
    /// Steps alone: the record of a begun operation is put into the row.
    Steps,
    /// Begin alone: the record is made idle again.
    Begins,
    /// Whole operations, from begin to the step that ends it.
    Operations,
}

#[derive(Clone, Copy, Debug, PartialEq, Eq)]
pub struct Load {
    pub who: Who,
    pub what: What,
    pub states: u16,
    pub operations: u16,
    pub text: usize,
    pub changing: bool,
    pub tasks: usize,
    /// How many operations are begun.
    pub count: u64,
}

const WHO: [(&str, Who); 3] = [
    ("library", Who::Library),
    ("second", Who::Second),
    ("mutex", Who::Mutex),
];

const WHAT: [(&str, What); 3] = [
    ("steps", What::Steps),
    ("begins", What::Begins),
    ("operations", What::Operations),
];

impl Load {
    pub fn words(&self) -> Vec<String> {
        let who = WHO.iter().find(|(_, who)| *who == self.who);
        let what = WHAT.iter().find(|(_, what)| *what == self.what);
        vec![
            who.map_or("", |(name, _)| name).to_string(),
            what.map_or("", |(name, _)| name).to_string(),
            self.states.to_string(),
            self.operations.to_string(),
            self.text.to_string(),
            self.changing.to_string(),
            self.tasks.to_string(),
            self.count.to_string(),
        ]
    }

    pub fn parse(words: &[&str]) -> Result<Load, String> {
        let [who, what, states, operations, text, changing, tasks, count] = words else {
            return Err("a load has eight words".to_string());
        };
        let parsed = || {
            Some(Load {
                who: WHO.iter().find(|(name, _)| name == who)?.1,
                what: WHAT.iter().find(|(name, _)| name == what)?.1,
                states: states.parse().ok()?,
                operations: operations.parse().ok()?,
                text: text.parse().ok()?,
                changing: changing.parse().ok()?,
                tasks: tasks.parse().ok()?,
                count: count.parse().ok()?,
            })
        };
        parsed().ok_or_else(|| "a word of a load can't be read".to_string())
    }
}
