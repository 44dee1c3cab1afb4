//! The four objects that the explorer tries, and the smallest one.

use crate::rules::Rules;
use crate::table::Table;
use crate::table_file::TableFile;
use crate::transition::System;

/// An object that is explored. Its last operation may be one that tasks never begin: it leads to a state that they never
/// reach. An operation that moves no other state is changing by the table and never changes anything.
pub struct Object {
    pub name: &'static str,
    pub table: Table<'static>,
    /// How many operations tasks begin, from 0 up.
    pub begun: usize,
}

impl Object {
    pub fn system(&self) -> System<'_> {
        self.with_rules(Rules::MACHINE)
    }

    pub fn with_rules(&self, rules: Rules) -> System<'_> {
        System {
            table: &self.table,
            begun: self.begun,
            rules,
        }
    }
}

pub fn explored_objects() -> Vec<Object> {
    let object = |(name, file, begun)| Object {
        name,
        table: checked(file),
        begun,
    };
    explored().map(object).into()
}

pub fn explored_files() -> [TableFile; 4] {
    explored().map(|(_, file, _)| file)
}

/// Name, file, and how many operations are begun.
fn explored() -> [(&'static str, TableFile, usize); 4] {
    [
        ("flag", TableFile::flag(), 3),
        ("counter", counter(), 3),
        ("latch", latch(), 2),
        ("switch", switch(), 2),
    ]
}

fn checked(file: TableFile) -> Table<'static> {
    let table = Table::check(file.kept()).expect("the objects are valid");
    table.with_changing_noted()
}

/// An object that stands still if only operation 0 is begun: that leads from state 1 to 0 and so is changing, but it is
/// operation 1 that leads to state 1. Every response is 0.
pub fn still() -> Table<'static> {
    checked(TableFile::plain(2, 2, 0, &[(0, 0), (1, 0), (0, 0), (1, 0)]))
}

/// The counter, and its operation that counts up and so always changes the state.
pub fn counter_up() -> (Table<'static>, usize) {
    (checked(counter()), 1)
}

/// A counter modulo 3: 0 reads, 1 counts up, 2 counts down; the response is the old state.
fn counter() -> TableFile {
    let entries: Vec<(u8, u8)> = (0..3)
        .flat_map(|state| [(state, state), ((state + 1) % 3, state), ((state + 2) % 3, state)])
        .collect();
    TableFile::plain(3, 3, 0, &entries)
}

/// A latch: 0 turns it over, 1 tells how it stands, and 2, which is not begun, leads to state 2. Operation 1 leads out of
/// that one and so is changing. The response tells state and operation apart.
fn latch() -> TableFile {
    let entries = [
        [(1, 10), (0, 11), (2, 12)],
        [(0, 20), (1, 21), (2, 22)],
        [(2, 30), (0, 31), (2, 32)],
    ];
    TableFile::plain(3, 3, 0, entries.as_flattened())
}

/// A switch: 0 turns it on, 1 turns it off, and every response is 0. So the moved bit alone tells whether it stood
/// otherwise before.
fn switch() -> TableFile {
    TableFile::plain(2, 2, 0, &[(1, 0), (0, 0), (1, 0), (0, 0)])
}

#[cfg(test)]
pub fn flag() -> Table<'static> {
    checked(TableFile::flag())
}

/// The object that stands still, with operation 0 begun alone.
#[cfg(test)]
pub fn still_object() -> Object {
    Object {
        name: "still",
        table: still(),
        begun: 1,
    }
}

/// All objects, each with one changing operation.
#[cfg(test)]
pub fn changing_objects() -> Vec<(&'static str, Table<'static>, usize)> {
    let with_operation = |object: Object| match object.name {
        "latch" | "switch" | "still" => (object.name, object.table, 0),
        _ => (object.name, object.table, 1),
    };
    let objects = explored_objects().into_iter().chain([still_object()]);
    objects.map(with_operation).collect()
}

#[cfg(test)]
mod tests {
    use super::*;
    use crate::reply::Reply;
    use std::collections::BTreeSet;

    #[test]
    fn reading_and_changing_operations_are_as_described() {
        let changing = |object: &Object| -> Vec<bool> {
            (0..object.begun)
                .map(|operation| object.table.is_changing(operation))
                .collect()
        };
        let objects = explored_objects();
        assert_eq!(changing(&objects[0]), [false, true, true]);
        assert_eq!(changing(&objects[1]), [false, true, true]);
        assert_eq!(changing(&objects[2]), [true, true]);
        assert_eq!(changing(&objects[3]), [true, true]);
        assert_eq!(changing(&still_object()), [true]);
    }

    /// The states that the begun operations lead to from the start.
    fn entered(object: &Object) -> BTreeSet<usize> {
        let mut states = BTreeSet::from([object.table.start]);
        for _ in 0..object.table.states {
            let next = |&state: &usize| {
                object
                    .table
                    .next_states(state)
                    .take(object.begun)
                    .collect::<Vec<_>>()
            };
            states.extend(states.iter().flat_map(next).collect::<Vec<_>>());
        }
        states
    }

    #[test]
    fn what_is_begun_leads_to_two_states_of_the_latch_and_to_one_of_what_stands_still() {
        let objects = explored_objects();
        let entered = |object: &Object| Vec::from_iter(entered(object));
        assert_eq!(entered(&objects[1]), [0, 1, 2]);
        assert_eq!(entered(&objects[2]), [0, 1]);
        assert_eq!(entered(&still_object()), [0]);
        for object in [&objects[2], &still_object()] {
            let last = object.begun - 1;
            assert!(entered(object)
                .iter()
                .all(|&state| !object.table.reply(state, last).moved));
        }
    }

    #[test]
    fn on_the_switch_the_response_does_not_tell_whether_the_state_moves() {
        let table = &explored_objects()[3].table;
        let replies = |operation: usize| [0, 1].map(|state| table.reply(state, operation));
        let [still, moved] = [false, true].map(|moved| Reply { response: 0, moved });
        assert_eq!(replies(0), [moved, still]);
        assert_eq!(replies(1), [still, moved]);
    }
}
