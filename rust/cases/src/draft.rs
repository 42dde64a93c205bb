//! An image in the making.

/// Bytes of one record.
pub(crate) const RECORD: usize = 16;
/// The last stage, as a byte of a record.
pub(crate) const LAST_STAGE: u8 = reference::LAST_STAGE as u8;

// Byte offsets in a record.
pub(crate) const STAGE: usize = 0;
pub(crate) const OWN_PRIORITY: usize = 1;
pub(crate) const PREV: usize = 2;
pub(crate) const W_POINTER: usize = 3;
pub(crate) const W_MARK: usize = 4;
pub(crate) const BYTE_5: usize = 5;
pub(crate) const W_COUNT: usize = 6;
pub(crate) const LINK_POINTER: usize = 8;
pub(crate) const LINK_MARK: usize = 9;
pub(crate) const LINK_COUNT: usize = 10;
pub(crate) const RECORD_PRIORITY: usize = 12;
pub(crate) const LOCKED: usize = 13;
pub(crate) const S: usize = 14;
pub(crate) const BYTE_15: usize = 15;

/// An image in the making: its parts as they will be written one after the other. Nothing keeps a
/// draft sound; that is up to whoever fills it in.
#[derive(Clone, PartialEq, Eq, Debug)]
pub struct Draft {
    /// Owner's bytes in front.
    pub owner: Vec<u8>,
    /// The records.
    pub records: Vec<[u8; RECORD]>,
    /// The log bytes.
    pub log: [u8; 256],
    /// The lock word.
    pub lock_word: u8,
    /// The edition.
    pub edition: u8,
    /// n as the trailer tells it.
    pub n: u16,
    /// The log length.
    pub log_length: u16,
    /// Trailer bytes 6 and 7.
    pub zeros: [u8; 2],
    /// The distance as the trailer tells it.
    pub distance: u32,
    /// The module that the case is about, 1 to n.
    pub focus: u8,
}

impl Draft {
    /// A fresh table of n modules, 1 to 64.
    pub fn fresh(n: u8) -> Draft {
        let mut record = [0; RECORD];
        record[LINK_MARK] = 1;
        Draft {
            owner: Vec::new(),
            records: vec![record; usize::from(n)],
            log: [0; 256],
            lock_word: 0,
            edition: 1,
            n: u16::from(n),
            log_length: 0,
            zeros: [0; 2],
            distance: 16 * u32::from(n) + 256,
            focus: 1,
        }
    }

    /// The record of a module, 1 to n.
    pub fn record(&mut self, module: u8) -> &mut [u8; RECORD] {
        &mut self.records[usize::from(module) - 1]
    }

    /// The record of the module that the case is about.
    pub fn focused(&mut self) -> &mut [u8; RECORD] {
        self.record(self.focus)
    }

    /// The whole buffer.
    pub fn bytes(&self) -> Vec<u8> {
        let mut bytes = self.owner.clone();
        for record in &self.records {
            bytes.extend(record);
        }
        bytes.extend(self.log);
        bytes.push(self.lock_word);
        bytes.push(self.edition);
        bytes.extend(self.n.to_be_bytes());
        bytes.extend(self.log_length.to_be_bytes());
        bytes.extend(self.zeros);
        bytes.extend(self.distance.to_be_bytes());
        bytes
    }
}

pub(crate) fn get_u16(record: &[u8; RECORD], at: usize) -> u16 {
    u16::from_be_bytes([record[at], record[at + 1]])
}

pub(crate) fn put_u16(record: &mut [u8; RECORD], at: usize, number: u16) {
    record[at..at + 2].copy_from_slice(&number.to_be_bytes());
}
