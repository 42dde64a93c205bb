//! The functions in a disassembly.

use super::Machine;

pub struct Function<'a> {
    pub section: &'a str,
    pub start: u64,
    pub name: &'a str,
    pub code: Vec<Instruction<'a>>,
}

pub struct Instruction<'a> {
    pub address: u64,
    /// Without comments.
    pub text: &'a str,
    /// Their types and what they name.
    pub relocations: Vec<(&'a str, &'a str)>,
}

/// Reads what `objdump -dr --no-show-raw-insn` prints. Every line must be one that is known.
pub fn read(machine: Machine, listing: &str) -> Result<Vec<Function<'_>>, String> {
    let (format, comment) = match machine {
        Machine::X86_64 => ("elf64-x86-64", "#"),
        Machine::Aarch64 => ("elf64-littleaarch64", "//"),
    };
    let number = |text: &str| u64::from_str_radix(text.trim(), 16).ok();
    let mut functions: Vec<Function> = Vec::new();
    let mut section = "";
    for line in listing.lines() {
        let last = functions.last_mut();
        let known = if line.is_empty() || line.starts_with("In archive ") {
            Some(())
        } else if let Some((_, given)) = line.split_once("file format ") {
            (given == format).then_some(())
        } else if let Some(named) = line.strip_prefix("Disassembly of section ") {
            section = named.trim_end_matches(':');
            Some(())
        } else if let Some((at, name)) = line.strip_suffix(">:").and_then(|l| l.split_once(" <")) {
            number(at).map(|start| {
                functions.push(Function {
                    section,
                    start,
                    name,
                    code: Vec::new(),
                })
            })
        } else if let Some((at, text)) = line.split_once(":\t") {
            number(at).zip(last).map(|(address, function)| {
                function.code.push(Instruction {
                    address,
                    text: text.split(comment).next().unwrap_or(text).trim(),
                    relocations: Vec::new(),
                })
            })
        } else {
            let relocation = line
                .split_once(": R_")
                .and_then(|(_, rest)| rest.split_once('\t'));
            let of = last.and_then(|function| function.code.last_mut());
            relocation
                .zip(of)
                .map(|(relocation, of)| of.relocations.push(relocation))
        };
        known.ok_or_else(|| format!("not a line of this machine's listing: {line}"))?;
    }
    for (at, function) in functions.iter().enumerate() {
        let name = function.name;
        if function.code.first().map(|first| first.address) != Some(function.start) {
            return Err(format!("{name} has no code"));
        }
        if functions[..at].iter().any(|other| other.name == name) {
            return Err(format!("{name} is there twice"));
        }
    }
    Ok(functions)
}
