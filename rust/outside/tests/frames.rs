//! The bounds of stack that are read off a listing.

use outside::frames::{bounds, complaints, limits, Bound, Machine, EXPORTS};
use Machine::{Aarch64, X86_64};

/// What `objdump` prints of this code: names of functions with a colon, and instructions, with
/// semicolons between. Each instruction is taken for one byte long; `@` tells what its relocation
/// names. Exports that are not there only return.
fn listing(machine: Machine, code: &str) -> String {
    let missing = EXPORTS.iter().filter(|name| !code.contains(*name));
    let missing: String = missing.map(|name| format!("; {name}:; ret")).collect();
    let mut text = String::from("In archive libdesk.a:\n");
    let mut address = 0;
    for part in format!("{code}{missing}").split("; ") {
        if let Some(name) = part.strip_suffix(':') {
            text += &format!("\nDisassembly of section .text.{name}:\n\n0000 <{name}>:\n");
            address = 0;
            continue;
        }
        let (instruction, named) = part.split_once('@').unwrap_or((part, ""));
        text += &format!("{address:4x}:\t{instruction}\n");
        text += &match machine {
            _ if named.is_empty() => String::new(),
            X86_64 => format!("\t\t\t{address:x}: R_X86_64_PLT32\t{named}-0x4\n"),
            Aarch64 => format!("\t\t\t{address:x}: R_AARCH64_CALL26\t{named}\n"),
        };
        address += 1;
    }
    text
}

/// The bound of a step with this code, which other functions may follow.
fn step(machine: Machine, code: &str) -> Result<Bound, String> {
    let listing = listing(machine, &format!("mokroshel_step:; {code}"));
    let bounds = bounds(machine, &listing)?;
    assert_eq!(bounds[0].name(), "mokroshel_step");
    Ok(bounds[0].clone())
}

fn lines(text: &str) -> impl Iterator<Item = &str> {
    text.lines().map(str::trim).filter(|line| !line.is_empty())
}

/// Each line is the bytes that a step takes, and its code.
fn take(machine: Machine, steps: &str) {
    for line in lines(steps) {
        let (bytes, code) = line.split_once(' ').expect("code");
        let bound = step(machine, code).map(|bound| bound.bytes.to_string());
        assert_eq!(bound.as_deref(), Ok(bytes), "{code}");
    }
}

/// Each line is the code of a step that is refused, for this reason.
fn are_refused(machine: Machine, why: &str, steps: &str) {
    for code in lines(steps) {
        let error = step(machine, code).expect_err(code);
        assert!(error.contains(why), "{code}: {error}");
    }
}

#[test]
fn a_frame() {
    take(
        X86_64,
        "
        8 ret
        24 push %rbp; push %rbx; pop %rbx; pop %rbp; ret
        80 sub $0x48,%rsp; mov %rsp,%rdi; add $0x48,%rsp; ret
        136 add $0xffffffffffffff80,%rsp; sub $0xffffffffffffff80,%rsp; ret
        ",
    );
    take(
        Aarch64,
        "
        0 ret
        80 sub sp, sp, #0x50; mov x0, sp; add x1, sp, #0x8; add sp, sp, #0x50; ret
        64 stp x1, x2, [sp, #-64]!; str x0, [sp, #8]; ldp x1, x2, [sp], #64; ret
        ",
    );
}

#[test]
fn what_is_below_the_stack_pointer() {
    take(
        X86_64,
        "
        72 mov %rax,-0x40(%rsp); mov %rax,-0x20(%rsp); ret
        72 movzbl -0x40(%rsp,%rax,1),%edx; ret
        72 lea -0x40(%rsp),%rdi; ret
        64 mov %dl,-0x31(%rsp); ret
        88 push %rbx; push %rax; mov %rax,-0x40(%rsp); pop %rax; pop %rbx; ret
        8 mov 0x40(%rsp),%rax; mov (%rsp),%rax; mov -0x40(%rdi),%rax; ret
        ",
    );
    take(Aarch64, "16 stur x0, [sp, #-16]; str x0, [x1, #-32]!; ret");
}

#[test]
fn every_way_through_a_function() {
    // Two frames side by side, and a loop.
    take(
        X86_64,
        "48 je 4 <>; push %rbx; pop %rbx; ret; \
         sub $0x28,%rsp; jne 5 <>; add $0x28,%rsp; ret",
    );
    take(
        Aarch64,
        "48 cbz x0, 4 <>; sub sp, sp, #0x10; add sp, sp, #0x10; ret; \
         sub sp, sp, #0x30; b.ne 5 <>; add sp, sp, #0x30; ret",
    );
    are_refused(X86_64, "met at two depths", "push %rax; jmp 0 <>");
}

#[test]
fn what_only_a_jump_table_leads_to() {
    let x86_64 = "push %rbx; lea 0x0(%rip),%rdx@.rodata.mokroshel_step; jmp *%rcx; \
                  xchg %ax,%ax; push %rax; pop %rax; jmp 7 <>; pop %rbx; ret; nop";
    let aarch64 = "str x30, [sp, #-16]!; adrp x8, 0 <>@.rodata.mokroshel_step; br x8; \
                   sub sp, sp, #0x20; add sp, sp, #0x20; ldr x30, [sp], #16; ret";
    take(X86_64, &format!("24 {x86_64}"));
    take(Aarch64, &format!("48 {aarch64}"));
    let no_table = "no jump table";
    are_refused(X86_64, no_table, &x86_64.replace("rodata", "data"));
    are_refused(Aarch64, no_table, &aarch64.replace("rodata", "data"));
    let two = x86_64.replace("jmp *%rcx", "jmp *%rcx; push %rax; jmp *%rcx");
    are_refused(X86_64, "tables at two depths", &two);
}

#[test]
fn chains_of_calls() {
    let x86_64 = "sub $0x28,%rsp; add $0x28,%rsp; \
                  push %rbx; call 0 <>@.text.a::b; pop %rbx; jmp 0 <>@c; \
                  a::b:; sub $0x20,%rsp; call 0 <>@memcpy; add $0x20,%rsp; call 0 <>@c; ret; \
                  c:; mov %rax,-0x10(%rsp); ret";
    assert_eq!(
        step(X86_64, x86_64).unwrap().to_string(),
        "mokroshel_step 64 bytes: mokroshel_step 16 > a::b 40 > memcpy 8; calls memcpy at 64"
    );
    let aarch64 = "str x30, [sp, #-16]!; bl 0 <>@.text.a::b; ldr x30, [sp], #16; b 0 <>@c; \
                   a::b:; str x30, [sp, #-32]!; bl 0 <>@memset; bl 0 <>@c; ldr x30, [sp], #32; ret; \
                   c:; sub sp, sp, #0x40; add sp, sp, #0x40; ret";
    assert_eq!(
        step(Aarch64, aarch64).unwrap().to_string(),
        "mokroshel_step 112 bytes: mokroshel_step 16 > a::b 32 > c 64; calls memset at 48"
    );
    // A jump to another function pushes nothing.
    take(
        X86_64,
        "72 push %rbx; pop %rbx; jmp 0 <>@.text.c; c:; sub $0x40,%rsp; add $0x40,%rsp; ret",
    );
    take(
        Aarch64,
        "64 cbz x0, 1 <>; b 0 <>@.text.c; c:; sub sp, sp, #0x40; add sp, sp, #0x40; ret",
    );
}

#[test]
fn what_has_no_bound() {
    let mutual = "call 0 <>@f; ret; f:; call 0 <>@.text.mokroshel_step; ret";
    are_refused(X86_64, "mokroshel_step comes to call itself", mutual);
    let itself = "f comes to call itself";
    are_refused(X86_64, itself, "call 0 <>@f; ret; f:; call 0 <f>; ret");
    are_refused(Aarch64, itself, "b 0 <>@f; f:; bl 0 <>@f; ret");
    are_refused(X86_64, "calls printf", "call 0 <>@printf; ret");
    are_refused(Aarch64, "calls printf", "bl 0 <>@printf; ret");
    are_refused(X86_64, "no function starts", "jmp 9 <>");
}

#[test]
fn what_is_not_understood() {
    let x86_64 = "call *%rax; call *0x0(%rip)@memcpy; sub %rax,%rsp; \
                  and $0xfffffffffffffff0,%rsp; mov %rbp,%rsp; mov %rsp,%rbp; lea 0x8(%rsp),%rsp; \
                  xchg %rsp,%rax; pop %rsp; leave; callq 0 <>; pushf; (bad); loop 0 <>; \
                  mov %esp,%eax; ret $0x8";
    let aarch64 = "blr x8; sub sp, sp, x8; mov sp, x29; add sp, x29, #0x10; mov wsp, w0; \
                   sub x9, sp, #0x10; and sp, x9, #0xf; st1 {v0.16b}, [sp], x8; \
                   sub sp, sp, #0x1, lsl #12; braa x8, x9; retaa; cbgt x0, x1, 0 <>; .inst 0x0; \
                   ldr z0, [sp, #-1, mul vl]";
    for (machine, each) in [(X86_64, x86_64), (Aarch64, aarch64)] {
        for instruction in each.split("; ") {
            are_refused(machine, "is not clear", &format!("{instruction}; ret"));
        }
    }
    are_refused(X86_64, "left on the stack", "push %rax; ret");
    are_refused(Aarch64, "left on the stack", "sub sp, sp, #0x10; ret");
    are_refused(X86_64, "more off the stack", "pop %rax; ret");
    are_refused(X86_64, "past its end", "nop");
    are_refused(X86_64, "past its end", "call 0 <>@memcpy");
    are_refused(X86_64, "nothing leads there", "ret; push %rax");
}

#[test]
fn a_listing_that_is_not_whole() {
    let whole = listing(X86_64, "mokroshel_step:; jmp 0 <>@memset");
    assert_eq!(bounds(X86_64, &whole).unwrap().len(), EXPORTS.len());
    let error = |from: &str, to: &str| bounds(X86_64, &whole.replace(from, to)).unwrap_err();
    assert_eq!(error("_turn", "_tern"), "there is no mokroshel_turn");
    assert_eq!(error("_turn>", "_step>"), "mokroshel_step is there twice");
    assert_eq!(error("0000 <", "0004 <"), "mokroshel_step has no code");
    assert!(error("PLT32", "GOTPCREL").contains("is not clear"));
    for line in ["\t...", "desk.o:     file format elf64-littleaarch64"] {
        assert!(error("In archive libdesk.a:", line).ends_with(line));
    }
}

#[test]
fn limits_hold() {
    let bounds = bounds(
        X86_64,
        &listing(X86_64, "mokroshel_step:; push %rax; pop %rax; ret"),
    );
    let bounds = bounds.unwrap();
    let complaints = |list: &str| complaints(&bounds, &limits(X86_64, list).unwrap());
    let others = EXPORTS.iter().filter(|name| **name != "mokroshel_step");
    let others: String = others.map(|name| format!("x86_64 {name} 8\n")).collect();
    let list =
        format!("# All.\n\n{others}aarch64 mokroshel_step 0\nx86_64 mokroshel_step 16 # 8 + 8\n");
    assert!(complaints(&list).is_empty());
    assert_eq!(
        complaints(&list.replace(" 16", " 15")),
        ["mokroshel_step can take 16 bytes, above its limit of 15"]
    );
    assert_eq!(complaints(&others), ["mokroshel_step has no limit"]);
    assert_eq!(
        complaints(&format!("{list}x86_64 mokroshel_stop 9")),
        ["there is a limit for mokroshel_stop, which is not exported"]
    );
    for wrong in [
        "x86-64 f 16",
        "x86_64 f",
        "x86_64 f many",
        "x86_64 mokroshel_turn 8",
    ] {
        assert!(
            limits(X86_64, &format!("{list}{wrong}")).is_err(),
            "{wrong}"
        );
    }
}
