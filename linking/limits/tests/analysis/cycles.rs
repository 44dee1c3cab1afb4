//! Functions that call themselves or each other.

use limits::cycles::Cycle;
use limits::given::Given;
use limits::survey::Known;
use limits::turns::{Turn, Turns};

use crate::code::{assert_refused, limits_by};

/// A cycle in which what is left falls by one.
const fn cycle<'a>(members: &'a [&'a str], most: usize) -> Cycle<'a> {
    Cycle {
        members,
        most,
        fall: 1,
        over: "",
    }
}

const fn turn(most: u64) -> Turn {
    Turn {
        depth: 1,
        most,
        over: "",
    }
}

fn known(functions: &[(&str, &str)], turns: &[Turns], cycles: &[Cycle]) -> Result<Known, String> {
    limits_by(functions, "", &Given { turns, cycles })
}

/// The limits of stack and instructions of a function.
fn both(known: &Known, name: &str) -> (u64, u64) {
    (known[name].stack, known[name].instructions)
}

/// Seven instructions and 16 bytes around one call of itself.
const ITSELF: (&str, &str) = (
    "f",
    "test %edi,%edi; je 6; push %rbx; dec %edi; call 5 @.text.f; pop %rbx; ret",
);

/// Two functions that call each other in loops.
const OURS: (&str, &str) = (
    "ours",
    "test %edi,%edi; je 5; call 3 @.text.theirs; dec %ecx; jne 2; ret",
);
const THEIRS: (&str, &str) = (
    "theirs",
    "test %edi,%edi; je 8; push %rbx; nop; call 5 @.text.ours; dec %ecx; jne 3; pop %rbx; ret",
);
const MEMBERS: [&str; 2] = ["ours", "theirs"];
const LOOPS: [Turns; 2] = [("ours", &[turn(32)]), ("theirs", &[turn(32)])];

#[test]
fn a_function_that_calls_itself_adds_up_its_calls() {
    for (most, calls) in (0..6).zip(0..) {
        let known = known(&[ITSELF], &[], &[cycle(&["f"], most)]).unwrap();
        assert_eq!(both(&known, "f"), (16 * calls + 8, 7 * calls + 3));
    }
}

#[test]
fn each_call_of_a_cycle_has_one_less_left() {
    let outer = ("outer", "sub $0x20,%rsp; call 2 @.text.ours; add $0x20,%rsp; ret");
    let (mut ours, mut theirs) = ((8, 3), (8, 3));
    for most in 0..=4 {
        let known = known(&[outer, OURS, THEIRS], &LOOPS, &[cycle(&MEMBERS, most)]).unwrap();
        assert_eq!((both(&known, "ours"), both(&known, "theirs")), (ours, theirs));
        assert_eq!(both(&known, "outer"), (8 + 0x20 + ours.0, 4 + ours.1));
        (ours, theirs) = (
            (8 + theirs.0, 2 + 32 * (3 + theirs.1) + 1),
            (16 + ours.0, 3 + 32 * (4 + ours.1) + 2),
        );
    }
}

/// A loop without a call, and one around a call of itself.
const TWO_WAYS: &str = "test %edi,%edi; je a; cmp $0x1,%edi; jne 7; dec %ecx; jne 4; ret; \
                        call 8 @.text.f; dec %ecx; jne 7; ret";

#[test]
fn what_is_left_may_fall_by_more_than_one() {
    let counted = |most, fall| {
        let turns = [turn(10), turn(32)];
        let cycle = Cycle {
            fall,
            ..cycle(&["f"], most)
        };
        let known = known(&[("f", TWO_WAYS)], &[("f", &turns)], &[cycle]);
        known.unwrap()["f"].instructions
    };
    let (without_call, around) = (4 + 10 * 2 + 1, |less| 4 + 32 * (3 + less) + 1);
    assert_eq!([counted(0, 2), counted(1, 2)], [3, without_call]);
    assert_eq!([counted(2, 2), counted(3, 2)], [around(3), around(without_call)]);
    assert_eq!(counted(4, 2), around(around(3)));
    assert_eq!(
        [counted(0, 1), counted(1, 1), counted(2, 1)],
        [3, around(3), around(around(3))]
    );
}

#[test]
fn with_nothing_left_the_longest_way_without_loops_and_calls_counts() {
    let body = "test %edi,%edi; je 7; nop; je 5; call 5 @.text.f; dec %ecx; jne 2; nop; nop; ret";
    let counted = |most| {
        let known = known(&[("f", body)], &[("f", &[turn(32)])], &[cycle(&["f"], most)]);
        known.unwrap()["f"].instructions
    };
    assert_eq!(counted(0), 5);
    assert_eq!(counted(1), 2 + 32 * (5 + 5) + 3);
}

#[test]
fn a_jump_to_a_member_takes_the_place_of_a_call() {
    let one = ("one", "test %edi,%edi; je 3; jmp 2 @.text.two; ret");
    let two = (
        "two",
        "push %rbx; pop %rbx; test %edi,%edi; je 5; jmp 4 @.text.one; ret",
    );
    let known = known(&[one, two], &[], &[cycle(&["two", "one"], 3)]).unwrap();
    assert_eq!(both(&known, "one"), (16, 3 + 5 + 3 + 5));
    assert_eq!(both(&known, "two"), (16, 5 + 3 + 5 + 3));
}

#[test]
fn a_member_may_call_another_cycle() {
    let outer = (
        "outer",
        "test %edi,%edi; je 4; call 3 @.text.f; call 4 @.text.outer; ret",
    );
    let cycles = [cycle(&["outer"], 2), cycle(&["f"], 3)];
    let known = known(&[outer, ITSELF], &[], &cycles).unwrap();
    let inner = 7 * 3 + 3;
    assert_eq!(both(&known, "f"), (16 * 3 + 8, inner));
    assert_eq!(both(&known, "outer"), (8 + 8 + 16 * 3 + 8, 2 * (5 + inner) + 3));
}

#[test]
fn a_cycle_without_its_depth_is_refused() {
    assert_refused(known(&[ITSELF], &[], &[]), "no depth is given for the cycle of f");
    let found = known(&[OURS, THEIRS], &LOOPS, &[]);
    assert_refused(found, "no depth is given for the cycle of ours, theirs");
}

#[test]
fn other_members_are_refused() {
    let third = ("third", "ret");
    for members in [&["ours"][..], &["ours", "third"], &["ours", "theirs", "third"]] {
        let found = known(&[OURS, THEIRS, third], &LOOPS, &[cycle(members, 4)]);
        assert_refused(
            found,
            &format!("cycle of {}, which the archive does not have", members.join(", ")),
        );
    }
    let cycles = [cycle(&MEMBERS, 4)];
    let through_third = ("third", "test %edi,%edi; je 3; call 3 @.text.ours; ret");
    let theirs = ("theirs", "call 1 @.text.third; ret");
    let found = known(&[OURS, theirs, through_third], &LOOPS[..1], &cycles);
    assert_refused(found, "cycle of ours, theirs, which the archive does not have");
}

#[test]
fn a_given_cycle_that_is_not_there_is_refused() {
    let cycles = [cycle(&["f"], 4), cycle(&["gone", "away"], 4)];
    assert_refused(
        known(&[ITSELF], &[], &cycles),
        "cycle of gone, away, which the archive does not have",
    );
    let straight = ("f", "nop; ret");
    assert_refused(
        known(&[straight], &[], &cycles[..1]),
        "cycle of f, which the archive does not have",
    );
}

#[test]
fn a_cycle_that_can_not_end_is_refused() {
    let too_little = "f: with too little left no way leads to an end";
    let endless = known(&[("f", "call 1 @.text.f; ret")], &[], &[cycle(&["f"], 4)]);
    assert_refused(endless, too_little);
    let body = "je 2; call 2 @.text.f; dec %ecx; jne 0; ret";
    let by_a_loop = known(&[("f", body)], &[("f", &[turn(32)])], &[cycle(&["f"], 4)]);
    assert_refused(by_a_loop, too_little);
    let constant = Cycle {
        fall: 0,
        ..cycle(&["f"], 4)
    };
    assert_refused(
        known(&[ITSELF], &[], &[constant]),
        "does not fall in the cycle of f",
    );
}

#[test]
fn counts_of_more_than_64_bits_are_refused() {
    let too_many = "more instructions than 64 bits hold";
    let turns = [("ours", &[turn(1 << 16)][..]), ("theirs", &[turn(1 << 16)])];
    let by_turns = |most| known(&[OURS, THEIRS], &turns, &[cycle(&MEMBERS, most)]);
    assert!(by_turns(3).is_ok());
    assert_refused(by_turns(4), too_many);
    let body = "test %edi,%edi; je 4; call 3 @.text.f; call 4 @.text.f; ret";
    let by_two_calls = |most| known(&[("f", body)], &[], &[cycle(&["f"], most)]);
    assert_eq!(by_two_calls(61).unwrap()["f"].instructions, u64::MAX - 4);
    assert_refused(by_two_calls(62), too_many);
}
