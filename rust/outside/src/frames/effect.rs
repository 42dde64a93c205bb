//! What an instruction does to the stack, and where it goes.

use super::listing::Instruction;
use super::Machine;

pub struct Effect<'a> {
    /// By how much the stack pointer goes down.
    pub grows: i64,
    /// How far below it, as it was, something is reached.
    pub reaches: i64,
    /// Whether the next instruction may follow.
    pub on: bool,
    pub goes: Goes<'a>,
}

pub enum Goes<'a> {
    Nowhere,
    To(Target<'a>),
    /// Where a register says.
    Somewhere,
    Calls(Target<'a>),
    Back,
}

#[derive(Clone, Copy, Debug)]
pub enum Target<'a> {
    /// In the same section.
    At(u64),
    /// A symbol, or a section's first byte.
    Named(&'a str),
}

fn grows(grows: i64) -> Effect<'static> {
    Effect {
        grows,
        reaches: 0,
        on: true,
        goes: Goes::Nowhere,
    }
}

fn goes(on: bool, goes: Goes) -> Effect {
    Effect {
        on,
        goes,
        ..grows(0)
    }
}

/// The effect of an instruction, if it is understood.
pub fn effect<'a>(machine: Machine, instruction: &Instruction<'a>) -> Option<Effect<'a>> {
    match machine {
        Machine::X86_64 => x86_64(instruction),
        Machine::Aarch64 => aarch64(instruction),
    }
}

/// Whether it does nothing, as what fills a gap does.
pub fn is_padding(instruction: &Instruction) -> bool {
    let mut words = instruction.text.split_whitespace();
    words.any(|word| word.starts_with("nop")) || split(instruction.text) == ("xchg", "%ax,%ax")
}

/// The first word, and the rest.
fn split(text: &str) -> (&str, &str) {
    let (word, rest) = text.split_once(char::is_whitespace).unwrap_or((text, ""));
    (word, rest.trim())
}

fn number(text: &str) -> Option<i64> {
    let text = text.trim_start_matches(['$', '#']);
    let (text, sign) = text.strip_prefix('-').map_or((text, 1), |text| (text, -1));
    let size = match text.strip_prefix("0x") {
        Some(text) => u64::from_str_radix(text, 16),
        None => text.parse(),
    };
    let size = i32::try_from(size.ok()? as i64).ok()?;
    Some(sign * i64::from(size))
}

/// Where a jump or a call goes that names its target.
fn target<'a>(instruction: &Instruction<'a>) -> Option<Target<'a>> {
    match instruction.relocations[..] {
        [] => {
            let before = instruction.text.split(" <").next()?;
            let address = before.rsplit([' ', ',', '\t']).next()?;
            u64::from_str_radix(address, 16).ok().map(Target::At)
        }
        [("X86_64_PLT32" | "X86_64_PC32", name)] => name.strip_suffix("-0x4").map(Target::Named),
        [("AARCH64_CALL26" | "AARCH64_JUMP26", name)] => Some(Target::Named(name)),
        _ => None,
    }
}

fn x86_64<'a>(instruction: &Instruction<'a>) -> Option<Effect<'a>> {
    const PREFIXES: &str = "bnd cs data16 lock notrack rep repnz repz";
    // Starts of words that are refused, unless a line before that one takes them.
    const REFUSED: &str = "push pop call ret leave enter int iret sys hlt ud lcall ljmp lret (";
    let (mut word, mut operands) = split(instruction.text);
    while PREFIXES.split(' ').any(|prefix| prefix == word) {
        (word, operands) = split(operands);
    }
    let indirect = operands.starts_with('*');
    let constant = operands.strip_suffix(",%rsp").and_then(number);
    let effect = match (word, constant) {
        ("push", _) => grows(8),
        ("pop", _) if operands != "%rsp" => grows(-8),
        ("sub", Some(by)) => grows(by),
        ("add", Some(by)) => grows(-by),
        ("ret", _) if operands.is_empty() => goes(false, Goes::Back),
        ("call", _) if !indirect => goes(true, Goes::Calls(target(instruction)?)),
        ("jmp", _) if indirect => goes(false, Goes::Somewhere),
        ("jmp", _) => goes(false, Goes::To(target(instruction)?)),
        _ if word.starts_with('j') => goes(true, Goes::To(target(instruction)?)),
        ("popcnt", _) => grows(0),
        _ if REFUSED.split(' ').any(|start| word.starts_with(start)) => return None,
        ("mov", _) if operands.starts_with("%rsp,") && operands != "%rsp,%rbp" => grows(0),
        _ if operands.split(',').any(|operand| operand == "%rsp") => return None,
        _ if operands.contains("%esp") || operands.contains("%sp") => return None,
        _ if operands.contains(" <") => return None,
        _ => grows(0),
    };
    let reaches = match operands.split_once("(%rsp") {
        Some((before, _)) => match before.rsplit([',', '*']).next()? {
            "" => 0,
            offset => number(offset)?.min(0).abs(),
        },
        None => 0,
    };
    Some(Effect { reaches, ..effect })
}

fn aarch64<'a>(instruction: &Instruction<'a>) -> Option<Effect<'a>> {
    // As on x86-64.
    const REFUSED: &str = "bl br bc. ret eret svc hvc smc hlt udf .";
    let (word, operands) = split(instruction.text);
    let is_stack_pointer = |operand| operand == "sp" || operand == "wsp";
    let mut bare = operands.split(", ").map(is_stack_pointer);
    let into = bare.next() == Some(true);
    let constant = operands.strip_prefix("sp, sp, ").and_then(number);
    let effect = match (word, constant) {
        ("sub", Some(by)) => grows(by),
        ("add", Some(by)) => grows(-by),
        ("ret", _) if operands.is_empty() => goes(false, Goes::Back),
        ("bl", _) => goes(true, Goes::Calls(target(instruction)?)),
        ("br", _) => goes(false, Goes::Somewhere),
        ("b", _) => goes(false, Goes::To(target(instruction)?)),
        ("cbz" | "cbnz" | "tbz" | "tbnz", _) => goes(true, Goes::To(target(instruction)?)),
        _ if word.starts_with("b.") => goes(true, Goes::To(target(instruction)?)),
        _ if REFUSED.split(' ').any(|start| word.starts_with(start)) => return None,
        ("mov" | "add", _) if !into => grows(0),
        _ if into || bare.any(|bare| bare) => return None,
        _ if operands.contains(" <") && !word.starts_with("adr") => return None,
        _ => grows(0),
    };
    let Some((_, place)) = operands.split_once("[sp") else {
        return Some(effect);
    };
    let (offset, after) = place.split_once(']')?;
    let constant = |text: &str| text.strip_prefix(", ").and_then(number);
    let indexed = offset.starts_with(", x") || offset.starts_with(", w");
    match (offset, after) {
        ("", "") => Some(effect),
        ("", by) => Some(grows(-constant(by)?)),
        (by, "!") => Some(grows(-constant(by)?)),
        (_, "") if indexed => Some(effect),
        (offset, "") => Some(Effect {
            reaches: constant(offset)?.min(0).abs(),
            ..effect
        }),
        _ => None,
    }
}
