//! How much stack the exports can take at most, read off the archive's disassembly.
//!
//! [`bounds`] follows the instructions of each function with their depth, which is how far the
//! stack pointer is below its place at the function's start. The bound of an export is the greatest
//! sum along any chain of calls, return addresses included. It holds for every input, and it counts
//! what is reserved and never written. Whatever is not understood is an error.
//!
//! It rests on three habits of compilers. An instruction is met at one depth only, so what a jump
//! table leads to is met at the depth of the jump; one that is seen to be met at two is an error.
//! An index register only goes up from the place that it is added to. A copy of the stack pointer
//! is not used to reach below it; on x86-64, where functions do reach below it, one in the frame
//! pointer's register is an error.

mod effect;
mod listing;
mod walk;

use std::collections::BTreeMap;
use std::fmt;

use effect::Target;
use listing::{read, Function};
use walk::{walk, Frame};

/// The calls that an archive must export.
pub const EXPORTS: [&str; 6] = [
    "mokroshel_set_up",
    "mokroshel_begin_acquisition",
    "mokroshel_begin_release",
    "mokroshel_step",
    "mokroshel_take_log",
    "mokroshel_turn",
];

/// What may be called of the C library. The stack that it takes is whoever's links it.
const LIBRARY: [&str; 5] = ["memcpy", "memset", "memmove", "memcmp", "bcmp"];

/// A kind of machine.
#[derive(Clone, Copy, PartialEq, Eq, Debug)]
pub enum Machine {
    /// A call pushes the return address.
    X86_64,
    /// A call pushes nothing.
    Aarch64,
}

impl Machine {
    /// The kind of this name.
    pub fn named(name: &str) -> Result<Machine, String> {
        match name {
            "x86_64" => Ok(Machine::X86_64),
            "aarch64" => Ok(Machine::Aarch64),
            _ => Err(format!("{name} is no kind of machine")),
        }
    }

    fn return_address(self) -> usize {
        match self {
            Machine::X86_64 => 8,
            Machine::Aarch64 => 0,
        }
    }
}

/// The most stack that a function can take.
#[derive(Clone, PartialEq, Eq, Debug)]
pub struct Bound {
    /// How many bytes.
    pub bytes: usize,
    /// The functions from this one to where it is deepest, and what each of them takes.
    pub chain: Vec<(String, usize)>,
    /// The functions of the C library that it calls, and how many bytes are taken by then.
    pub library: BTreeMap<String, usize>,
}

impl Bound {
    fn of(name: &str, bytes: usize) -> Bound {
        Bound {
            bytes,
            chain: vec![(name.to_string(), bytes)],
            library: BTreeMap::new(),
        }
    }

    /// The function's name.
    pub fn name(&self) -> &str {
        &self.chain[0].0
    }

    /// With the bytes that the call itself takes.
    fn called(mut self, bytes: usize) -> Bound {
        self.bytes += bytes;
        self.chain[0].1 += bytes;
        self.library.values_mut().for_each(|at| *at += bytes);
        self
    }

    /// With what its function comes to take through a call at this depth.
    fn calling(&mut self, depth: usize, callee: Bound) {
        for (name, at) in callee.library {
            let most = self.library.entry(name).or_default();
            *most = (depth + at).max(*most);
        }
        if depth + callee.bytes > self.bytes {
            self.bytes = depth + callee.bytes;
            self.chain.truncate(1);
            self.chain[0].1 = depth;
            self.chain.extend(callee.chain);
        }
    }
}

impl fmt::Display for Bound {
    fn fmt(&self, f: &mut fmt::Formatter<'_>) -> fmt::Result {
        let chain = self.chain.iter().map(|(name, own)| format!("{name} {own}"));
        let chain = chain.collect::<Vec<_>>().join(" > ");
        write!(f, "{} {} bytes: {chain}", self.name(), self.bytes)?;
        if self.library.is_empty() {
            return Ok(());
        }
        let library = self
            .library
            .iter()
            .map(|(name, by)| format!("{name} at {by}"));
        let library = library.collect::<Vec<_>>().join(", ");
        write!(f, "; calls {library}")
    }
}

/// The bounds of all exports, from what `objdump -dr --no-show-raw-insn` prints of the archive.
pub fn bounds(machine: Machine, listing: &str) -> Result<Vec<Bound>, String> {
    let functions = read(machine, listing)?;
    for name in EXPORTS {
        if !functions.iter().any(|function| function.name == name) {
            return Err(format!("there is no {name}"));
        }
    }
    let frames = functions.iter().map(|function| walk(machine, function));
    let frames: Vec<_> = frames.collect::<Result<_, _>>()?;
    let archive = Archive { functions, frames };
    let exports = (0..archive.functions.len())
        .filter(|place| archive.functions[*place].name.starts_with("mokroshel_"));
    let bounds = exports.map(|place| {
        let bound = archive.bound(place, &mut Vec::new())?;
        Ok(bound.called(machine.return_address()))
    });
    bounds.collect()
}

struct Archive<'a> {
    functions: Vec<Function<'a>>,
    frames: Vec<Frame<'a>>,
}

impl Archive<'_> {
    /// The bound of a function without its return address. `above` has those that led to it.
    fn bound(&self, place: usize, above: &mut Vec<usize>) -> Result<Bound, String> {
        let (name, frame) = (self.functions[place].name, &self.frames[place]);
        if above.contains(&place) {
            return Err(format!("{name} comes to call itself"));
        }
        above.push(place);
        let mut bound = Bound::of(name, frame.bytes);
        for call in &frame.calls {
            let callee = match (self.find(place, call.target), call.target) {
                (Some(callee), _) => self.bound(callee, above)?,
                (None, Target::Named(other)) if LIBRARY.contains(&other) => Bound {
                    library: BTreeMap::from([(other.to_string(), 0)]),
                    ..Bound::of(other, 0)
                },
                (None, Target::Named(other)) => {
                    return Err(format!("{name} calls {other}, whose stack is not known"));
                }
                (None, Target::At(address)) => {
                    return Err(format!(
                        "{name} goes to {address:x}, where no function starts"
                    ));
                }
            };
            bound.calling(call.depth, callee.called(call.pushed));
        }
        above.pop();
        Ok(bound)
    }

    /// The function that a target in this one's code is the start of.
    fn find(&self, from: usize, target: Target) -> Option<usize> {
        let section = self.functions[from].section;
        self.functions.iter().position(|function| match target {
            Target::At(address) => function.section == section && function.start == address,
            Target::Named(name) => {
                function.name == name || function.section == name && function.start == 0
            }
        })
    }
}

/// The limits for this kind of machine, from lines `KIND EXPORT BYTES`; `#` starts a comment.
pub fn limits(machine: Machine, list: &str) -> Result<BTreeMap<String, usize>, String> {
    let mut limits = BTreeMap::new();
    for line in list.lines() {
        let line = line.split('#').next().unwrap_or(line);
        let words: Vec<_> = line.split_whitespace().collect();
        let (kind, export, bytes) = match words[..] {
            [] => continue,
            [kind, export, bytes] => (Machine::named(kind)?, export, bytes.parse()),
            _ => return Err(format!("not a limit: {line}")),
        };
        let bytes = bytes.map_err(|_| format!("not a number of bytes: {line}"))?;
        if kind == machine && limits.insert(export.to_string(), bytes).is_some() {
            return Err(format!("two limits for {export}"));
        }
    }
    Ok(limits)
}

/// What is wrong with these bounds under these limits.
pub fn complaints(bounds: &[Bound], limits: &BTreeMap<String, usize>) -> Vec<String> {
    let above = bounds.iter().filter_map(|bound| {
        let (name, bytes) = (bound.name(), bound.bytes);
        match limits.get(name) {
            None => Some(format!("{name} has no limit")),
            Some(limit) if bytes > *limit => Some(format!(
                "{name} can take {bytes} bytes, above its limit of {limit}"
            )),
            Some(_) => None,
        }
    });
    let idle = limits
        .keys()
        .filter(|limit| bounds.iter().all(|bound| bound.name() != *limit));
    let idle = idle.map(|limit| format!("there is a limit for {limit}, which is not exported"));
    above.chain(idle).collect()
}
