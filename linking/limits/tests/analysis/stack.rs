//! The stack of small functions.

use crate::code::{assert_refused, limits, limits_of};

#[test]
fn a_return_alone_has_its_return_address() {
    assert_eq!(limits_of("ret", &[]).unwrap().stack, 8);
}

#[test]
fn pushes_and_frames_are_counted() {
    let body = "push %rbx; sub $0x20,%rsp; lea -0x10(%rsp),%rsp; sub $0xffffffffffffff80,%rsp; \
                sub $0x80,%rsp; add $0x30,%rsp; pop %rbx; ret";
    assert_refused(limits_of(body, &[]), "takes more from the stack");
    let body = "push %rbx; sub $0x20,%rsp; lea -0x10(%rsp),%rsp; add $0x30,%rsp; pop %rbx; ret";
    assert_eq!(limits_of(body, &[]).unwrap().stack, 8 + 8 + 0x20 + 0x10);
    let body = "add $0xffffffffffffff80,%rsp; sub $0xffffffffffffff80,%rsp; ret";
    assert_eq!(limits_of(body, &[]).unwrap().stack, 8 + 0x80);
}

#[test]
fn nested_calls_add_up() {
    let known = limits(
        &[
            ("inner", "push %rbx; pop %rbx; ret"),
            (
                "middle",
                "sub $0x18,%rsp; call 1 @.text.inner; add $0x18,%rsp; ret",
            ),
            (
                "outer",
                "call 1 @inner; sub $0x28,%rsp; call 3 @.text.middle; add $0x28,%rsp; ret",
            ),
        ],
        "",
        &[],
    );
    let known = known.unwrap();
    assert_eq!(known["inner"].stack, 16);
    assert_eq!(known["middle"].stack, 8 + 0x18 + 16);
    assert_eq!(known["outer"].stack, 8 + 0x28 + known["middle"].stack);
}

#[test]
fn the_deepest_callee_counts() {
    let small = ("small", "ret");
    let large = ("large", "sub $0x100,%rsp; add $0x100,%rsp; ret");
    let both = ("both", "call 1 @.text.large; call 2 @.text.small; ret");
    let known = limits(&[small, large, both], "", &[]).unwrap();
    assert_eq!(known["both"].stack, 8 + 8 + 0x100);
}

#[test]
fn a_jump_to_another_function_hands_over_the_return_address() {
    let inner = ("inner", "push %rbx; pop %rbx; ret");
    let outer = ("outer", "jmp 1 @.text.inner");
    assert_eq!(limits(&[inner, outer], "", &[]).unwrap()["outer"].stack, 16);
    let outer = ("outer", "push %rax; jmp 2 @.text.inner");
    assert_refused(
        limits(&[inner, outer], "", &[]),
        "a stack that is not the caller's",
    );
}

#[test]
fn memory_below_the_stack_pointer_is_counted() {
    let limits = limits_of("movaps %xmm0,-0x28(%rsp); mov -0x2c(%rsp,%rdi,4),%eax; ret", &[]);
    let limits = limits.unwrap();
    assert_eq!((limits.stack, limits.below), (8 + 0x28, 0x28));
    assert_eq!(limits.vector_registers.into_iter().collect::<Vec<_>>(), ["xmm0"]);
    assert_eq!(
        limits_of("lea -0x40(%rsp),%rdi; ret", &[]).unwrap().stack,
        8 + 0x40
    );
    let unknown = limits_of("mov %eax,-0x2c(%rsp,%rdi,4); ret", &[]);
    assert_refused(unknown, "below the stack pointer at an unknown place");
}

#[test]
fn functions_of_others_are_named() {
    let limits = limits_of("sub $0x8,%rsp; call 2 @memset; add $0x8,%rsp; ret", &[]).unwrap();
    assert_eq!(limits.outside.into_iter().collect::<Vec<_>>(), ["memset"]);
    assert_eq!((limits.stack, limits.instructions), (24, 4));
}

#[test]
fn other_changes_of_the_stack_pointer_are_refused() {
    for change in [
        "and $0xfffffffffffffff0,%rsp",
        "mov %rbp,%rsp",
        "sub %rax,%rsp",
        "lea -0x8(%rbp),%rsp",
        "pop %rsp",
        "push %ax",
        "xchg %rsp,%rax",
    ] {
        assert_refused(
            limits_of(&format!("{change}; ret"), &[]),
            "changes the stack pointer",
        );
    }
    assert_refused(limits_of("leave; ret", &[]), "is not followed");
    assert_eq!(
        limits_of("mov %rsp,%rbp; cmp %rax,%rsp; ret", &[]).unwrap().stack,
        8
    );
}

#[test]
fn a_stack_that_differs_by_the_way_is_refused() {
    assert_refused(limits_of("je 2; push %rax; nop; ret", &[]), "two depths of stack");
    assert_refused(limits_of("push %rax; ret", &[]), "not the caller's");
}
