//! The counts of instructions of small functions.

use limits::turns::Turn;

use crate::code::{assert_refused, limits, limits_of, table};

const fn turn(depth: usize, most: u64) -> Turn {
    Turn {
        depth,
        most,
        over: "",
    }
}

fn count(body: &str, turns: &[Turn]) -> Result<u64, String> {
    limits_of(body, turns).map(|limits| limits.instructions)
}

#[test]
fn every_instruction_of_a_straight_way_counts() {
    assert_eq!(
        count("mov %rdi,%rax; data16 cs nopw 0x0(%rax,%rax,1); ret", &[]),
        Ok(3)
    );
}

#[test]
fn the_longer_side_of_a_diamond_counts() {
    assert_eq!(count("je 3; nop; jmp 6; nop; nop; nop; ret", &[]), Ok(5));
    assert_eq!(count("je 5; nop; nop; nop; jmp 6; nop; ret", &[]), Ok(6));
}

#[test]
fn what_is_not_reached_does_not_count() {
    assert_eq!(count("jmp 2; syscall; ret; nop; nop", &[]), Ok(2));
}

#[test]
fn callees_count_at_every_call() {
    let inner = ("inner", "nop; nop; ret");
    let outer = (
        "outer",
        "call 1 @.text.inner; call 2 @.text.inner; jmp 3 @.text.inner",
    );
    assert_eq!(
        limits(&[inner, outer], "", &[]).unwrap()["outer"].instructions,
        12
    );
}

#[test]
fn a_loop_turns_up_to_its_limit() {
    assert_eq!(
        count("nop; dec %rdi; jne 1; ret", &[turn(1, 5)]),
        Ok(1 + 5 * 2 + 1)
    );
    // The last turn leaves in the middle, for more instructions than its end has.
    let body = "nop; je 5; dec %rdi; jne 1; ret; nop; nop; nop; nop; ret";
    assert_eq!(count(body, &[turn(1, 5)]), Ok(1 + 4 * 3 + 1 + 5));
}

#[test]
fn nested_loops_multiply() {
    let body = "nop; nop; dec %rdi; jne 2; dec %rsi; jne 1; ret";
    let inner = 7 * 2;
    assert_eq!(
        count(body, &[turn(1, 3), turn(2, 7)]),
        Ok(1 + 3 * (1 + inner + 2) + 1)
    );
}

#[test]
fn loops_without_their_limits_are_refused() {
    let body = "nop; dec %rdi; jne 1; ret";
    assert_refused(
        count(body, &[]),
        "loops of the depths [1], but limits are given for []",
    );
    assert_refused(count(body, &[turn(1, 5), turn(1, 5)]), "given for [1, 1]");
    assert_refused(count(body, &[turn(2, 5)]), "given for [2]");
    assert_refused(count("ret", &[turn(1, 5)]), "given for [1]");
    assert_refused(
        limits(&[("f", "ret")], "", &[("gone", &[])]),
        "gone has limits of turns",
    );
}

#[test]
fn loops_of_other_shapes_are_refused() {
    let tested_at_start = "dec %rdi; je 4; nop; jmp 0; ret";
    assert_refused(count(tested_at_start, &[turn(1, 5)]), "without a test at its end");
    let entered_twice = "je 2; nop; nop; jne 1; ret";
    assert_refused(
        count(entered_twice, &[turn(1, 5)]),
        "entered at more than one place",
    );
}

#[test]
fn unknown_ways_are_refused() {
    assert_refused(count("call *%rax; ret", &[]), "has an unknown target");
    assert_refused(count("jmp *0x8(%rax)", &[]), "has an unknown target");
    assert_refused(count("rep stos %al,%es:(%rdi); ret", &[]), "is not followed");
    assert_refused(count("je 7; ret", &[]), "leads out of its function");
    assert_refused(count("nop", &[]), "past the end");
    assert_refused(count("call 7; ret", &[]), "no known function");
}

/// A jump by a table whose address is taken at instruction 0.
const BY_TABLE: &str =
    "lea 0x0(%rip),%rcx @.rodata.f; movslq (%rcx,%rdi,4),%rdx; add %rcx,%rdx; mov %eax,%ecx; \
                        jmp *%rdx; ret; nop; ret; nop; nop; ret";

#[test]
fn a_table_has_the_targets_of_its_entries() {
    let counted = |targets: &[u64]| {
        let known = limits(&[("f", BY_TABLE)], &table("f", targets), &[]);
        known.map(|known| known["f"].instructions)
    };
    assert_eq!(counted(&[5]), Ok(6));
    assert_eq!(counted(&[5, 6]), Ok(7));
    assert_eq!(counted(&[8, 5, 6]), Ok(8));
    assert_refused(counted(&[]), "has a table that is not found");
    assert_refused(counted(&[5, 99]), "has a table that is not found");
    assert_refused(counted(&[5, 3]), "has a table that may be another");
}

#[test]
fn a_table_ends_where_the_next_begins() {
    let body = "lea 0x0(%rip),%rsi @.rodata.f+0x4; ".to_string() + BY_TABLE;
    let known = limits(&[("f", &body)], &table("f", &[6, 7, 9]), &[]);
    assert_eq!(known.unwrap()["f"].instructions, 8);
}

#[test]
fn a_jump_by_another_register_is_refused() {
    for body in [
        "jmp *%rdx; ret",
        "lea 0x0(%rip),%rcx @.rodata.f; movslq (%rcx,%rdi,4),%rdx; jmp *%rdx; ret",
        "lea 0x0(%rip),%rcx @.rodata.f; movslq (%rcx,%rdi,4),%rdx; inc %ecx; add %rcx,%rdx; jmp *%rdx; ret",
    ] {
        let known = limits(&[("f", body)], &table("f", &[0]), &[]);
        assert_refused(known, "has a table that is not found");
    }
}
