//! The image taken apart into columns, and put together again.

use crate::Link;

/// The most modules that a table can have.
pub const MOST_MODULES: usize = 64;
/// Bytes of one record.
pub const RECORD_BYTES: usize = 16;
/// Bytes of the log.
pub const LOG_BYTES: usize = 256;
/// Bytes of the trailer.
pub const TRAILER_BYTES: usize = 12;

/// Bytes that a table of `n` modules takes at the end of its buffer: 16n + 268.
pub fn table_length(n: u32) -> u64 {
    distance(n) + TRAILER_BYTES as u64
}

/// The distance from the trailer's first byte back to record 1: 16n + 256.
pub(crate) fn distance(n: u32) -> u64 {
    RECORD_BYTES as u64 * u64::from(n) + LOG_BYTES as u64
}

/// A field of a record.
#[derive(Clone, Copy, PartialEq, Eq, Debug)]
pub enum Field {
    /// The module's stage, 0 to [`LAST_STAGE`](crate::LAST_STAGE).
    Stage,
    /// The module's own priority, private to it.
    OwnPriority,
    /// *prev*, a module.
    Prev,
    /// The pointer of *w*, a link read earlier.
    WPointer,
    /// The mark of *w*, coded as the link's.
    WMark,
    /// A byte that is zero.
    Byte5,
    /// The count of *w*.
    WCount,
    /// The pointer of the record's link.
    LinkPointer,
    /// The mark of the record's link, 1 closed.
    LinkMark,
    /// The count of the record's link.
    LinkCount,
    /// The record priority, which others read.
    RecordPriority,
    /// Locked, 1 while the module must wait.
    Locked,
    /// *s*, the successor.
    S,
    /// Another byte that is zero.
    Byte15,
}

/// Where a field lies in its record.
#[derive(Clone, Copy, Debug)]
pub struct Spot {
    /// The field.
    pub field: Field,
    /// Its name in the paper.
    pub name: &'static str,
    /// Its first byte.
    pub first: usize,
    /// How many bytes it has; numbers are big-endian.
    pub bytes: usize,
}

const fn spot(field: Field, name: &'static str, first: usize, bytes: usize) -> Spot {
    Spot {
        field,
        name,
        first,
        bytes,
    }
}

/// The record's fields, in order and without gaps.
pub const RECORD: [Spot; 14] = [
    spot(Field::Stage, "stage", 0, 1),
    spot(Field::OwnPriority, "own priority", 1, 1),
    spot(Field::Prev, "prev", 2, 1),
    spot(Field::WPointer, "w pointer", 3, 1),
    spot(Field::WMark, "w mark", 4, 1),
    spot(Field::Byte5, "zero (byte 5)", 5, 1),
    spot(Field::WCount, "w count", 6, 2),
    spot(Field::LinkPointer, "link pointer", 8, 1),
    spot(Field::LinkMark, "link mark", 9, 1),
    spot(Field::LinkCount, "link count", 10, 2),
    spot(Field::RecordPriority, "record priority", 12, 1),
    spot(Field::Locked, "Locked", 13, 1),
    spot(Field::S, "s", 14, 1),
    spot(Field::Byte15, "zero (byte 15)", 15, 1),
];

/// A field of the trailer.
#[derive(Clone, Copy, PartialEq, Eq, Debug)]
pub enum TrailerField {
    /// The lock word, a module or 0.
    LockWord,
    /// The edition, which is 1.
    Edition,
    /// The number of modules.
    N,
    /// How many log bytes are entries.
    LogLength,
    /// Two bytes that are zero.
    Zeros,
    /// The distance from the trailer's first byte back to record 1.
    Distance,
}

/// Where a field lies in the trailer.
#[derive(Clone, Copy, Debug)]
pub struct TrailerSpot {
    /// The field.
    pub field: TrailerField,
    /// Its name in the paper.
    pub name: &'static str,
    /// Its first byte.
    pub first: usize,
    /// How many bytes it has; numbers are big-endian.
    pub bytes: usize,
}

const fn trailer_spot(
    field: TrailerField,
    name: &'static str,
    first: usize,
    bytes: usize,
) -> TrailerSpot {
    TrailerSpot {
        field,
        name,
        first,
        bytes,
    }
}

/// The trailer's fields, in order and without gaps.
pub const TRAILER: [TrailerSpot; 6] = [
    trailer_spot(TrailerField::LockWord, "lock word", 0, 1),
    trailer_spot(TrailerField::Edition, "edition", 1, 1),
    trailer_spot(TrailerField::N, "n", 2, 2),
    trailer_spot(TrailerField::LogLength, "log length", 4, 2),
    trailer_spot(TrailerField::Zeros, "zeros", 6, 2),
    trailer_spot(TrailerField::Distance, "distance", 8, 4),
];

fn read_number(bytes: &[u8]) -> u32 {
    bytes
        .iter()
        .fold(0, |number, byte| number << 8 | u32::from(*byte))
}

fn write_number(bytes: &mut [u8], number: u32) {
    let mut rest = number;
    for byte in bytes.iter_mut().rev() {
        *byte = (rest & 0xff) as u8;
        rest >>= 8;
    }
}

/// The records, the log and the trailer of one buffer, as numbers.
///
/// A sheet can be read from any buffer. Where the buffer is too short for a trailer there is
/// none; where the trailer does not say rightly where the records lie, or they don't fit in, the
/// sheet has no [body](Sheet::has_body), that is neither records nor log.
#[derive(Clone, PartialEq, Eq, Debug)]
pub struct Sheet {
    buffer_length: usize,
    trailer: Option<[u32; TRAILER.len()]>,
    modules: usize,
    /// One column after the other, each with one number for each module.
    columns: Vec<u16>,
    log: Vec<u8>,
}

impl Sheet {
    /// Take a buffer apart.
    pub fn read(buffer: &[u8]) -> Sheet {
        let mut sheet = Sheet {
            buffer_length: buffer.len(),
            trailer: None,
            modules: 0,
            columns: Vec::new(),
            log: Vec::new(),
        };
        let Some(trailer_at) = buffer.len().checked_sub(TRAILER_BYTES) else {
            return sheet;
        };
        let trailer_bytes = &buffer[trailer_at..];
        sheet.trailer = Some(
            TRAILER.map(|spot| read_number(&trailer_bytes[spot.first..spot.first + spot.bytes])),
        );
        let n = sheet.n();
        let leads_to_records = (1..=MOST_MODULES as u32).contains(&n)
            && u64::from(sheet.trailer_number(TrailerField::Distance)) == distance(n);
        let Some(first_record) = trailer_at.checked_sub(distance(n) as usize) else {
            return sheet;
        };
        if !leads_to_records {
            return sheet;
        }
        let body = &buffer[first_record..trailer_at];
        sheet.modules = n as usize;
        let (records, log) = body.split_at(RECORD_BYTES * sheet.modules);
        sheet.columns.reserve_exact(RECORD.len() * sheet.modules);
        for spot in &RECORD {
            for record in records.chunks_exact(RECORD_BYTES) {
                let number = read_number(&record[spot.first..spot.first + spot.bytes]);
                sheet.columns.push(number as u16);
            }
        }
        sheet.log = log.to_vec();
        sheet
    }

    /// A fresh table of `n` modules (1 to 64) for a buffer of this length: zero but for closed
    /// marks on all own links and the trailer.
    pub fn fresh(n: u32, buffer_length: usize) -> Sheet {
        let modules = n as usize;
        let mut sheet = Sheet {
            buffer_length,
            trailer: Some([0; TRAILER.len()]),
            modules,
            columns: vec![0; RECORD.len() * modules],
            log: vec![0; LOG_BYTES],
        };
        for module in 1..=n as u16 {
            sheet.set_link(module, Link::FRESH);
        }
        sheet.set_trailer(TrailerField::Edition, 1);
        sheet.set_trailer(TrailerField::N, n);
        sheet.set_trailer(TrailerField::Distance, distance(n) as u32);
        sheet
    }

    /// Put records, log and trailer back at the very end of a buffer. Owner's bytes in front are
    /// left alone, and so is the whole buffer where the sheet has no body.
    pub fn write(&self, buffer: &mut [u8]) {
        let Some(numbers) = self.trailer else { return };
        if !self.has_body() {
            return;
        }
        let first_record = buffer.len() - TRAILER_BYTES - LOG_BYTES - RECORD_BYTES * self.modules;
        let table = &mut buffer[first_record..];
        let (records, rest) = table.split_at_mut(RECORD_BYTES * self.modules);
        let (log, trailer) = rest.split_at_mut(LOG_BYTES);
        for spot in &RECORD {
            let column = self.column(spot.field);
            for (record, number) in records.chunks_exact_mut(RECORD_BYTES).zip(column) {
                write_number(
                    &mut record[spot.first..spot.first + spot.bytes],
                    u32::from(*number),
                );
            }
        }
        log.copy_from_slice(&self.log);
        for (spot, number) in TRAILER.iter().zip(numbers) {
            write_number(&mut trailer[spot.first..spot.first + spot.bytes], number);
        }
    }

    /// The length of the buffer that the sheet was read from.
    pub fn buffer_length(&self) -> usize {
        self.buffer_length
    }

    /// Whether the buffer was long enough for a trailer.
    pub fn has_trailer(&self) -> bool {
        self.trailer.is_some()
    }

    /// Whether records and log were found: n and distance are right and the buffer holds all that
    /// the trailer points back to.
    pub fn has_body(&self) -> bool {
        self.modules > 0
    }

    /// A field of the trailer, if there is a trailer.
    pub fn trailer(&self, field: TrailerField) -> Option<u32> {
        self.trailer.map(|numbers| numbers[field as usize])
    }

    fn trailer_number(&self, field: TrailerField) -> u32 {
        self.trailer(field).unwrap_or(0)
    }

    pub(crate) fn set_trailer(&mut self, field: TrailerField, number: u32) {
        if let Some(numbers) = &mut self.trailer {
            numbers[field as usize] = number;
        }
    }

    /// n as the trailer has it, 0 without a trailer.
    pub fn n(&self) -> u32 {
        self.trailer_number(TrailerField::N)
    }

    /// The lock word, 0 without a trailer.
    pub fn lock_word(&self) -> u16 {
        self.trailer_number(TrailerField::LockWord) as u16
    }

    /// The log length as the trailer has it, 0 without a trailer.
    pub fn log_length(&self) -> usize {
        self.trailer_number(TrailerField::LogLength) as usize
    }

    /// All 256 log bytes, none where the sheet has no body.
    pub fn log(&self) -> &[u8] {
        &self.log
    }

    /// One field of all records, in the order of the modules.
    pub fn column(&self, field: Field) -> &[u16] {
        let at = field as usize * self.modules;
        &self.columns[at..at + self.modules]
    }

    /// One field of one module's record. The module is 1 to n.
    pub fn get(&self, field: Field, module: u16) -> u16 {
        self.column(field)[usize::from(module) - 1]
    }

    pub(crate) fn set(&mut self, field: Field, module: u16, number: u16) {
        let at = field as usize * self.modules + usize::from(module) - 1;
        self.columns[at] = number;
    }

    /// The link of a module's record. The module is 1 to n.
    pub fn link(&self, module: u16) -> Link {
        Link {
            pointer: self.get(Field::LinkPointer, module),
            mark: self.get(Field::LinkMark, module),
            count: self.get(Field::LinkCount, module),
        }
    }

    pub(crate) fn set_link(&mut self, module: u16, link: Link) {
        self.set(Field::LinkPointer, module, link.pointer);
        self.set(Field::LinkMark, module, link.mark);
        self.set(Field::LinkCount, module, link.count);
    }

    /// A module's *w*, the link it read earlier. The module is 1 to n.
    pub fn w(&self, module: u16) -> Link {
        Link {
            pointer: self.get(Field::WPointer, module),
            mark: self.get(Field::WMark, module),
            count: self.get(Field::WCount, module),
        }
    }

    pub(crate) fn set_w(&mut self, module: u16, link: Link) {
        self.set(Field::WPointer, module, link.pointer);
        self.set(Field::WMark, module, link.mark);
        self.set(Field::WCount, module, link.count);
    }

    /// Add an entry to the held log, which has room for it.
    pub(crate) fn log_admission(&mut self, module: u16) {
        let length = self.log_length();
        self.log[length] = module as u8;
        self.set_trailer(TrailerField::LogLength, length as u32 + 1);
    }

    /// Make the held log empty and zero.
    pub(crate) fn empty_log(&mut self) {
        self.log.fill(0);
        self.set_trailer(TrailerField::LogLength, 0);
    }
}
