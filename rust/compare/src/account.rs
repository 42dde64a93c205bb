//! The account of a difference.

use std::fmt;

use cases::{Call, Kind, DAMAGES};
use reference::{
    broken_rules, Field, Sheet, TrailerField, LOG_BYTES, RECORD, RECORD_BYTES, TRAILER,
    TRAILER_BYTES,
};

use crate::drive::{agree, outcome, Outcome};
use crate::{Desk, Lent};

/// Two desks differed, or both broke a rule that needs no second opinion.
#[derive(Clone, Debug)]
pub struct Difference {
    /// Which call of the run it was, from 1.
    pub at_call: u64,
    /// What sort of case it was.
    pub kind: Kind,
    /// The image before, made as plain as it can be while the desks still differ.
    pub before: Vec<u8>,
    /// The call.
    pub call: Call,
    names: [String; 2],
    outcomes: [Outcome; 2],
}

/// Make the image before the call as plain as it can be while the desks still differ on it: as few
/// owner's bytes, log entries and other fields as possible. A sound image stays sound and an
/// unsound one goes on breaking the same rules.
pub(crate) fn shrink(
    left: &mut dyn Desk,
    right: &mut dyn Desk,
    before: &[u8],
    call: &Call,
    kind: Kind,
    at_call: u64,
) -> Difference {
    let broken = broken_rules(before);
    let mut least = before.to_vec();
    let mut differ = |image: &[u8]| {
        let outcomes = [outcome(left, image, call), outcome(right, image, call)];
        !agree(image, call, &outcomes[0], &outcomes[1])
    };
    // A desk that keeps something between calls may differ only once; then nothing is left out.
    if differ(&least) {
        let mut better = true;
        while better {
            better = false;
            for candidate in simpler(&least) {
                if candidate != least && broken_rules(&candidate) == broken && differ(&candidate) {
                    least = candidate;
                    better = true;
                    break;
                }
            }
        }
    }
    let outcomes = [outcome(left, &least, call), outcome(right, &least, call)];
    Difference {
        at_call,
        kind,
        before: least,
        call: call.clone(),
        names: [left.name(), right.name()],
        outcomes,
    }
}

/// Images a little plainer than this one.
fn simpler(image: &[u8]) -> Vec<Vec<u8>> {
    let mut candidates = Vec::new();
    let sheet = Sheet::read(image);
    if !sheet.has_body() {
        return candidates;
    }
    let n = sheet.n() as usize;
    let first = image.len() - TRAILER_BYTES - LOG_BYTES - RECORD_BYTES * n;
    if first > 0 {
        candidates.push(image[first..].to_vec());
        candidates.push(image[1..].to_vec());
    }
    let mut put = |at: usize, bytes: &[u8]| {
        if image[at..at + bytes.len()] != *bytes {
            let mut candidate = image.to_vec();
            candidate[at..at + bytes.len()].copy_from_slice(bytes);
            candidates.push(candidate);
        }
    };
    let fresh = fresh_record();
    for module in 0..n {
        put(first + RECORD_BYTES * module, &fresh);
    }
    let log = first + RECORD_BYTES * n;
    let trailer = log + LOG_BYTES;
    let mut no_log = vec![0; LOG_BYTES];
    no_log.extend(&image[trailer..trailer + 4]);
    no_log.extend([0, 0]);
    put(log, &no_log);
    put(trailer, &[0]);
    for module in 0..n {
        for spot in &RECORD {
            let at = first + RECORD_BYTES * module + spot.first;
            put(at, &fresh[spot.first..spot.first + spot.bytes]);
        }
    }
    candidates
}

fn fresh_record() -> [u8; RECORD_BYTES] {
    let mut record = [0; RECORD_BYTES];
    record[9] = 1;
    record
}

impl fmt::Display for Difference {
    fn fmt(&self, f: &mut fmt::Formatter<'_>) -> fmt::Result {
        let kind = match self.kind {
            Kind::History => "in a history".to_string(),
            Kind::Strange => "on a strange image".to_string(),
            Kind::Damaged(damage) => {
                let damage = &DAMAGES[damage];
                let rules = damage.breaks.join(" and ");
                format!("on an image damaged in \"{rules}\", {}", damage.side)
            }
            Kind::Cut => "on a cut image".to_string(),
            Kind::Noise => "on noise".to_string(),
            Kind::Flipped => "on an image with one bit turned".to_string(),
        };
        writeln!(f, "call {} of the run, {kind}: {}", self.at_call, self.call)?;
        writeln!(f, "image before, {} bytes:", self.before.len())?;
        write_fields(f, &self.before)?;
        for (name, outcome) in self.names.iter().zip(&self.outcomes) {
            match outcome.said {
                Some(said) => writeln!(f, "{name}: {said}")?,
                None => writeln!(f, "{name}: panicked")?,
            }
        }
        let [left, right] = &self.outcomes;
        let mut given = Lent::default();
        given.give(&self.call);
        let mut shown = 0;
        for (what, before, left, right) in [
            ("image", &self.before[..], &left.image, &right.image),
            ("log buffer", &given.log, &left.lent.log, &right.lent.log),
        ] {
            for (at, byte) in before.iter().enumerate() {
                let (one, other) = (left[at], right[at]);
                // Without a difference between the two, what both changed is what is wrong.
                let wrong = one != other || (left == right && one != *byte);
                if wrong {
                    shown += 1;
                    if shown <= 40 {
                        let place = if what == "image" {
                            place_in_image(&left_or_before(left, before), at)
                        } else {
                            format!("byte {at}")
                        };
                        writeln!(
                            f,
                            "{what}, {place}: {byte} before, {} has {one}, {} has {other}",
                            self.names[0], self.names[1]
                        )?;
                    }
                }
            }
        }
        if shown > 40 {
            writeln!(f, "and {} bytes more", shown - 40)?;
        }
        if shown == 0 {
            writeln!(f, "the bytes are the same")?;
        }
        if let Call::Turn { last } = self.call {
            writeln!(
                f,
                "marker: {last} before, {} has {}, {} has {}",
                self.names[0], left.lent.last, self.names[1], right.lent.last
            )?;
        }
        Ok(())
    }
}

/// The image whose trailer names places: the one after, if it leads to records, else the one before.
fn left_or_before(after: &[u8], before: &[u8]) -> Vec<u8> {
    if Sheet::read(after).has_body() {
        after.to_vec()
    } else {
        before.to_vec()
    }
}

/// The image as fields, fresh records left out.
fn write_fields(f: &mut fmt::Formatter<'_>, image: &[u8]) -> fmt::Result {
    let sheet = Sheet::read(image);
    let broken = broken_rules(image);
    if broken.is_empty() {
        writeln!(f, "  sound")?;
    } else {
        writeln!(f, "  unsound: {}", broken.join("; "))?;
    }
    if !sheet.has_trailer() {
        return writeln!(f, "  bytes {image:?}");
    }
    let numbers: Vec<String> = TRAILER
        .iter()
        .map(|spot| format!("{} {}", spot.name, sheet.trailer(spot.field).unwrap_or(0)))
        .collect();
    writeln!(f, "  trailer: {}", numbers.join(", "))?;
    if !sheet.has_body() {
        return writeln!(f, "  no records found");
    }
    let body = reference::table_length(sheet.n()) as usize;
    let owner = image.len() - body;
    if owner > 0 {
        writeln!(f, "  owner's bytes: {owner}")?;
    }
    let records = &image[owner..owner + RECORD_BYTES * sheet.n() as usize];
    let mut fresh = 0;
    for (place, record) in records.chunks_exact(RECORD_BYTES).enumerate() {
        if record == fresh_record() {
            fresh += 1;
            continue;
        }
        let module = place as u16 + 1;
        let get = |field| sheet.get(field, module);
        let link = |link: reference::Link| {
            let mark = match link.mark {
                0 => "open".to_string(),
                1 => "closed".to_string(),
                other => format!("mark {other}"),
            };
            format!("({}, {mark}, {})", link.pointer, link.count)
        };
        write!(
            f,
            "  module {module}: stage {}, own priority {}, prev {}, w {}, link {}, record \
             priority {}, Locked {}, s {}",
            get(Field::Stage),
            get(Field::OwnPriority),
            get(Field::Prev),
            link(sheet.w(module)),
            link(sheet.link(module)),
            get(Field::RecordPriority),
            get(Field::Locked),
            get(Field::S),
        )?;
        for field in [Field::Byte5, Field::Byte15] {
            if get(field) != 0 {
                write!(f, ", {field:?} {}", get(field))?;
            }
        }
        writeln!(f)?;
    }
    if fresh > 0 {
        writeln!(f, "  fresh records: {fresh}")?;
    }
    let used = sheet
        .log()
        .iter()
        .rposition(|byte| *byte != 0)
        .map_or(0, |last| last + 1)
        .max(sheet.log_length().min(LOG_BYTES));
    if used > 0 {
        writeln!(f, "  log bytes: {:?}", &sheet.log()[..used])?;
    }
    Ok(())
}

/// The name of a byte's place in a buffer.
fn place_in_image(image: &[u8], at: usize) -> String {
    let sheet = Sheet::read(image);
    let n = if sheet.has_body() {
        sheet.trailer(TrailerField::N).unwrap_or(0) as usize
    } else {
        return format!("byte {at}");
    };
    let trailer = image.len() - TRAILER_BYTES;
    let log = trailer - LOG_BYTES;
    let first = log - RECORD_BYTES * n;
    if at < first {
        return format!("owner's byte {at}");
    }
    if at < log {
        let byte = (at - first) % RECORD_BYTES;
        let module = (at - first) / RECORD_BYTES + 1;
        let name = RECORD
            .iter()
            .find(|spot| (spot.first..spot.first + spot.bytes).contains(&byte))
            .map_or("", |spot| spot.name);
        return format!("module {module}'s {name}, record byte {byte}");
    }
    if at < trailer {
        return format!("log byte {}", at - log);
    }
    let byte = at - trailer;
    let name = TRAILER
        .iter()
        .find(|spot| (spot.first..spot.first + spot.bytes).contains(&byte))
        .map_or("", |spot| spot.name);
    format!("{name}, trailer byte {byte}")
}
