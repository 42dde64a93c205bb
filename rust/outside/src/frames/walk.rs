//! What a function takes by itself.

use super::effect::{effect, is_padding, Goes, Target};
use super::listing::Function;
use super::Machine;

pub struct Frame<'a> {
    /// The most, calls aside.
    pub bytes: usize,
    pub calls: Vec<Call<'a>>,
}

/// A call of another function, or a jump to it.
pub struct Call<'a> {
    pub depth: usize,
    /// The bytes of the return address, if it goes onto the stack.
    pub pushed: usize,
    pub target: Target<'a>,
}

/// Goes every way through a function.
pub fn walk<'a>(machine: Machine, function: &Function<'a>) -> Result<Frame<'a>, String> {
    let Function { name, code, .. } = function;
    let wrong = |at: usize, why: &str| {
        let (address, text) = (code[at].address, code[at].text);
        Err(format!("{name} at {address:x}, {text}: {why}"))
    };
    let mut depths: Vec<Option<i64>> = vec![None; code.len()];
    let (mut deepest, mut calls, mut table) = (0, Vec::new(), None);
    let mut ways = vec![(0, 0)];
    loop {
        while let Some((at, depth)) = ways.pop() {
            if at == code.len() {
                return Err(format!("{name} runs past its end"));
            }
            match depths[at].replace(depth) {
                None => {}
                Some(known) if known == depth => continue,
                Some(_) => return wrong(at, "it is met at two depths"),
            }
            let Some(effect) = effect(machine, &code[at]) else {
                return wrong(
                    at,
                    "what it does to the stack, or where it goes, is not clear",
                );
            };
            let after = depth + effect.grows;
            if after < 0 {
                return wrong(at, "it takes more off the stack than was put on");
            }
            deepest = deepest.max(after).max(depth + effect.reaches);
            let mut call = |pushed, target| {
                calls.push(Call {
                    depth: depth as usize,
                    pushed,
                    target,
                })
            };
            match effect.goes {
                Goes::Nowhere => {}
                Goes::To(target) => match within(function, target) {
                    Some(to) => ways.push((to, depth)),
                    None => call(0, target),
                },
                Goes::Calls(target) => call(machine.return_address(), target),
                Goes::Somewhere if !has_table(function) => {
                    return wrong(at, "it jumps through no jump table");
                }
                Goes::Somewhere if table.is_some_and(|known| known != depth) => {
                    return wrong(at, "there are jump tables at two depths");
                }
                Goes::Somewhere => table = Some(depth),
                Goes::Back if depth != 0 => return wrong(at, "something is left on the stack"),
                Goes::Back => {}
            }
            if effect.on {
                ways.push((at + 1, after));
            }
        }
        // What is left is what only the jump table leads to.
        let left = (0..code.len()).find(|at| depths[*at].is_none() && !is_padding(&code[*at]));
        match (left, table) {
            (None, _) => break,
            (Some(at), Some(depth)) => ways.push((at, depth)),
            (Some(at), None) => return wrong(at, "nothing leads there"),
        }
    }
    // A word of which one byte is taken is taken.
    let bytes = (deepest as usize).next_multiple_of(8);
    Ok(Frame { bytes, calls })
}

/// The place in a function's code that a jump leads to.
fn within(function: &Function, target: Target) -> Option<usize> {
    let leads = |address| matches!(target, Target::At(to) if to == address);
    let mut addresses = function.code.iter().map(|code| code.address);
    addresses.position(leads)
}

/// Whether a function names the section that a compiler puts its jump tables into.
fn has_table(function: &Function) -> bool {
    let mut named = function.code.iter().flat_map(|code| &code.relocations);
    named.any(|(_, section)| {
        let of = section.strip_prefix(".rodata.");
        let rest = of.and_then(|of| of.strip_prefix(function.name));
        rest.is_some_and(|rest| rest.is_empty() || rest.starts_with(['+', '-']))
    })
}
