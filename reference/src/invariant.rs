//! The invariant of the step machine, clause by clause: what holds at every point of a run.

use crate::cells::{announcement_in_form, has_mark, head_in_form, value, Announcement, Head};
use crate::configuration::Configuration;
use crate::phase::Phase;
use crate::record::Record;
use crate::table::Table;

/// The first clause that does not hold.
pub fn check(table: &Table, point: &Configuration) -> Result<(), String> {
    check_without(table, point, None)
}

/// The first clause that does not hold, one about the tasks left out.
pub fn check_without(table: &Table, point: &Configuration, left_out: Option<&str>) -> Result<(), String> {
    hold(cells_in_form(table, point), "forms of the cells")?;
    hold(holder_is_at_work(point), "G1")?;
    for task in 0..point.tasks {
        let of_task = TaskView::new(point, task);
        hold(of_task.forms(table), "forms of the record")?;
        for (name, clause) in TaskView::CLAUSES {
            hold(left_out == Some(name) || clause(&of_task), name)?;
        }
    }
    Ok(())
}

fn hold(clause: bool, name: &str) -> Result<(), String> {
    match clause {
        true => Ok(()),
        false => Err(format!("invariant: {name} does not hold")),
    }
}

fn cells_in_form(table: &Table, point: &Configuration) -> bool {
    head_in_form(point.head(), table.states, point.tasks)
        && (0..point.tasks)
            .all(|task| announcement_in_form(point.announcement(task), table.operations, point.tasks))
}

fn holder_is_at_work(point: &Configuration) -> bool {
    let Some(holder) = point.holder() else {
        return true;
    };
    let record = point.record(holder.task);
    let phase = record.known_phase();
    let content = point.content(holder.task);
    (phase.is_loop() || phase.is_exit())
        && (content == Announcement::Operation(record.operation)
            || content == Announcement::Response(holder.reply))
}

/// The announcement has the reply that a payload stands for, and the payload has nothing else.
fn is_reply_of(content: Announcement, payload: u32) -> bool {
    matches!(content, Announcement::Response(reply) if reply.to_payload() == payload)
}

/// A task, its record and the marks that the clauses speak of.
struct TaskView<'a> {
    point: &'a Configuration,
    task: usize,
    record: &'a Record,
    phase: Phase,
    /// The task has its mark on the head.
    linked: bool,
}

impl<'a> TaskView<'a> {
    /// The clauses about a task, by their names.
    const CLAUSES: [(&'static str, fn(&TaskView<'a>) -> bool); 7] = [
        ("T1", TaskView::t1),
        ("T2", TaskView::t2),
        ("T3", TaskView::t3),
        ("T4", TaskView::t4),
        ("T5", TaskView::t5),
        ("T6", TaskView::t6),
        ("T7", TaskView::t7),
    ];

    fn new(point: &'a Configuration, task: usize) -> TaskView<'a> {
        let record = point.record(task);
        TaskView {
            point,
            task,
            record,
            phase: record.known_phase(),
            linked: point.is_linked_to_head(task),
        }
    }

    fn forms(&self, table: &Table) -> bool {
        let changing = |operation: u16| table.is_changing(usize::from(operation));
        let operation_fits = match self.phase {
            Phase::Idle => true,
            Phase::ReadOnly => !changing(self.record.operation),
            _ => changing(self.record.operation),
        };
        operation_fits && self.record.is_in_form(table, self.point.tasks)
    }

    fn is_before_announcing(&self) -> bool {
        matches!(self.phase, Phase::Idle | Phase::ReadOnly | Phase::Announce)
    }

    fn t1(&self) -> bool {
        let content = self.point.content(self.task);
        if self.is_before_announcing() {
            content == Announcement::Empty
        } else if self.phase.is_loop() {
            content == Announcement::Operation(self.record.operation) || self.point.is_cleared(self.task)
        } else {
            is_reply_of(content, self.record.payload)
        }
    }

    fn t2(&self) -> bool {
        let unmarked = self.is_before_announcing() || self.phase == Phase::Retract;
        let own_place = |other: usize| self.phase.marked_announcement() == Some(other);
        !(unmarked && self.linked)
            && (0..self.point.tasks)
                .all(|other| own_place(other) || !self.point.is_linked_to(self.task, other))
    }

    fn t3(&self) -> bool {
        self.phase != Phase::Retract || !self.point.is_holder(self.task)
    }

    fn t4(&self) -> bool {
        let saved = Head::decode(self.record.head);
        let saved_mark = has_mark(self.record.head, self.task);
        let own = saved.is_held_by(self.task);
        match self.phase {
            Phase::LinkExit => own && !saved_mark,
            Phase::ClearExit => own && saved_mark,
            Phase::ReleaseExit => !own && saved_mark,
            phase if phase.is_after_link() => {
                let unmoved = value(self.point.head()) == value(self.record.head);
                self.saved_holder_fits(saved) && saved_mark && (!self.linked || unmoved)
            }
            _ => true,
        }
    }

    /// After the head was linked the saved head has no holder, or the one that is helped.
    fn saved_holder_fits(&self, saved: Head) -> bool {
        match self.phase {
            Phase::LoadPriority | Phase::LoadOwn | Phase::Apply(_) | Phase::ReloadApply(_) => {
                saved.holder.is_none()
            }
            Phase::ClearHead | Phase::ReloadClear => saved.holder.is_some(),
            helping => helping.named_task().is_some_and(|other| saved.is_held_by(other)),
        }
    }

    fn t5(&self) -> bool {
        match self.phase {
            Phase::Apply(other) | Phase::ReloadApply(other) => {
                let to_apply = Announcement::Operation(self.record.payload as u16);
                !self.linked || self.point.content(other) == to_apply
            }
            _ => true,
        }
    }

    fn t6(&self) -> bool {
        let Some(other) = self.phase.marked_announcement() else {
            return true;
        };
        let saved = Announcement::decode(self.record.announcement);
        let releasing = matches!(self.phase, Phase::Release(_) | Phase::ReloadRelease(_));
        has_mark(self.record.announcement, self.task)
            && (!self.point.is_linked_to(self.task, other) || self.point.content(other) == saved)
            && (releasing || matches!(saved, Announcement::Operation(_)))
    }

    fn t7(&self) -> bool {
        let linked_to = |other: usize| self.point.is_linked_to(self.task, other);
        let cleared = |other: usize| self.point.is_cleared(other);
        match self.phase {
            Phase::Validate(other) => linked_to(other) || !self.linked || cleared(other),
            Phase::HandOver(other) | Phase::ReloadHandOver(other) => match linked_to(other) {
                true => self.linked,
                false => !self.linked || cleared(other),
            },
            Phase::Release(other) | Phase::ReloadRelease(other) => !self.linked || cleared(other),
            Phase::ClearHead | Phase::ReloadClear => {
                let helped = Head::decode(self.record.head).holder;
                !self.linked || helped.is_some_and(|holder| cleared(holder.task))
            }
            _ => true,
        }
    }
}
