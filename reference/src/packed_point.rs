//! A settled point of a chase over the object with one state in reach, as one word.
//!
//! Where no call is forced, the saved words of the other tasks follow from the cells, and so do their marks in the
//! announcements. Of the victim's saved words only the marks are kept, and only while its own mark stands.

use crate::cells::{has_mark, mark_of, value, Announcement, Head, Holder};
use crate::configuration::Configuration;
use crate::machine::{announcement_cell, HEAD_CELL};
use crate::phase::Phase;
use crate::record::Record;
use crate::reply::Reply;

const HOLDER_BITS: u32 = 4;
const PHASE_BITS: u32 = 7;
const PRIORITY_BITS: u32 = 2;
/// More tasks do not fit in a word.
pub const MOST_PACKED_TASKS: usize = 4;

/// The only reply of the object that stands still.
const REPLY: Reply = Reply {
    response: 0,
    moved: false,
};

/// Writes fields from the lowest bit up, or reads them in the same order.
struct Fields {
    word: u64,
    used: u32,
}

impl Fields {
    fn put(&mut self, field: u64, width: u32) {
        assert!(field >> width == 0 && self.used + width <= u64::BITS);
        self.word |= field << self.used;
        self.used += width;
    }

    fn take(&mut self, width: u32) -> u64 {
        let field = (self.word >> self.used) & ((1 << width) - 1);
        self.used += width;
        field
    }
}

/// The marks of a word, as a field.
fn marks(word: u64) -> u64 {
    word - value(word)
}

pub fn pack(point: &Configuration, victim: usize) -> u64 {
    let width = point.tasks as u32;
    let holder = point.holder().map_or(0, |holder| holder.task as u64 + 1);
    let mut fields = Fields { word: 0, used: 0 };
    fields.put(holder, HOLDER_BITS);
    fields.put(marks(point.head()), width);
    for (task, record) in point.row().iter().enumerate() {
        fields.put(u64::from(record.phase), PHASE_BITS);
        fields.put(u64::from(record.priority), PRIORITY_BITS);
        fields.put(u64::from(point.is_cleared(task)), 1);
    }
    let kept = Kept::of(point, victim);
    fields.put(u64::from(kept.linked), 1);
    fields.put(kept.head_marks, width);
    fields.put(kept.announcement_marks, width);
    fields.word
}

/// What is kept of the victim's links and saved words; marks that are not needed are 0.
struct Kept {
    /// The own mark stands in the helped announcement.
    linked: bool,
    head_marks: u64,
    announcement_marks: u64,
}

impl Kept {
    fn of(point: &Configuration, victim: usize) -> Kept {
        let record = point.record(victim);
        let phase = record.known_phase();
        let helped = phase.marked_announcement();
        let linked = helped.is_some_and(|helped| point.is_linked_to(victim, helped));
        let head_kept = keeps_head(phase) && point.is_linked_to_head(victim);
        let announcement_kept = keeps_announcement(phase) && linked;
        Kept {
            linked,
            head_marks: if head_kept { marks(record.head) } else { 0 },
            announcement_marks: if announcement_kept {
                marks(record.announcement)
            } else {
                0
            },
        }
    }

    /// Puts the marks back into the saved words of the victim's record.
    fn restore(&self, record: &mut Record, victim: usize, head: u64) {
        let phase = record.known_phase();
        if keeps_head(phase) && has_mark(head, victim) {
            record.head = value(record.head) | self.head_marks;
        }
        if keeps_announcement(phase) {
            record.announcement = match self.linked {
                true => value(record.announcement) | self.announcement_marks,
                false => Announcement::Operation(0).encode() | mark_of(victim),
            };
        }
    }
}

/// Phases whose saved head is compared later, not now.
fn keeps_head(phase: Phase) -> bool {
    let now = matches!(
        phase,
        Phase::Apply(_) | Phase::ReloadApply(_) | Phase::ClearHead | Phase::ReloadClear
    );
    phase.is_after_link() && !now
}

/// The phase whose saved announcement is compared later, not now.
fn keeps_announcement(phase: Phase) -> bool {
    matches!(phase, Phase::Validate(_))
}

pub fn unpack(word: u64, tasks: usize, victim: usize) -> Configuration {
    let width = tasks as u32;
    let mut fields = Fields { word, used: 0 };
    let holder = (fields.take(HOLDER_BITS) as usize).checked_sub(1);
    let mut cells = vec![head_word(holder) | fields.take(width)];
    let mut row = vec![Record::default(); tasks];
    for record in &mut row {
        record.phase = fields.take(PHASE_BITS) as u8;
        record.priority = fields.take(PRIORITY_BITS) as u8;
        let cleared = fields.take(1) == 1;
        cells.push(content(record.known_phase(), cleared).encode());
    }
    let kept = Kept {
        linked: fields.take(1) == 1,
        head_marks: fields.take(width),
        announcement_marks: fields.take(width),
    };
    for (task, record) in row.iter().enumerate() {
        match record.known_phase().marked_announcement() {
            Some(helped) if task != victim || kept.linked => {
                cells[announcement_cell(helped)] |= mark_of(task);
            }
            _ => {}
        }
    }
    for (task, record) in row.iter_mut().enumerate() {
        restore_saved(task, record, &cells);
    }
    kept.restore(&mut row[victim], victim, cells[HEAD_CELL]);
    Configuration::of_parts(&cells, &row)
}

fn head_word(holder: Option<usize>) -> u64 {
    let holder = holder.map(|task| Holder { task, reply: REPLY });
    Head { state: 0, holder }.encode()
}

fn content(phase: Phase, cleared: bool) -> Announcement {
    match phase {
        Phase::Idle | Phase::ReadOnly | Phase::Announce => Announcement::Empty,
        _ if cleared => Announcement::Response(REPLY),
        _ => Announcement::Operation(0),
    }
}

/// Saved words as they are at a settled point: those in the cells, or, if the own mark is gone, one that no cell has.
fn restore_saved(task: usize, record: &mut Record, cells: &[u64]) {
    let phase = record.known_phase();
    let linked = has_mark(cells[HEAD_CELL], task);
    record.head = match phase {
        Phase::LinkHead => cells[HEAD_CELL],
        _ if phase.is_exit() && phase != Phase::LoadExit => cells[HEAD_CELL],
        _ if !phase.is_after_link() => 0,
        _ if linked => cells[HEAD_CELL],
        Phase::Apply(_) | Phase::ReloadApply(_) => head_word(None) | mark_of(task),
        _ => head_word(phase.named_task()) | mark_of(task),
    };
    record.announcement = match phase {
        Phase::LinkHelped(helped) => cells[announcement_cell(helped)],
        _ => phase
            .marked_announcement()
            .map_or(0, |helped| cells[announcement_cell(helped)]),
    };
}
