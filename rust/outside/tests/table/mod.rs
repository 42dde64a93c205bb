//! A table on a desk, looked at by byte offsets of document 01.

use compare::{Desk, Said};

/// Steps that take the free lock: stages 1, 2, 19 and 3.
pub const FREE: u32 = 4;

pub struct Table<'a> {
    pub desk: &'a mut dyn Desk,
    pub image: Vec<u8>,
}

impl Table<'_> {
    /// A fresh table of n modules.
    pub fn fresh(desk: &mut dyn Desk, n: u32) -> Table<'_> {
        let mut image = vec![0; 16 * n as usize + 268];
        assert_eq!(desk.set_up(&mut image, n), Said::answered(0));
        Table { desk, image }
    }

    pub fn record(&self, p: u32) -> &[u8] {
        &self.image[16 * (p as usize - 1)..][..16]
    }

    pub fn stage(&self, p: u32) -> u8 {
        self.record(p)[0]
    }

    /// The records found from the lock word.
    pub fn found(&self) -> Vec<u8> {
        let mut found = vec![self.image[self.image.len() - 12]];
        while let Some(&last) = found.last().filter(|&&last| last != 0) {
            found.push(self.record(last.into())[8]);
        }
        found.pop();
        found
    }

    /// An accepted step; the number of its answer.
    pub fn step(&mut self, p: u32) -> u32 {
        let said = self.desk.step(&mut self.image, p);
        assert!(!said.refused, "module {p}: {said}");
        said.number
    }

    pub fn begin_acquisition(&mut self, p: u32, priority: u32) {
        let begun = self.desk.begin_acquisition(&mut self.image, p, priority);
        assert_eq!(begun, Said::answered(0));
    }

    pub fn begin_release(&mut self, p: u32) {
        let begun = self.desk.begin_release(&mut self.image, p);
        assert_eq!(begun, Said::answered(0));
    }

    /// The log as it is taken.
    pub fn log(&mut self) -> Vec<u8> {
        let mut log = [0; 256];
        let taken = self.desk.take_log(&mut self.image, &mut log);
        assert!(!taken.refused);
        log[..taken.length as usize].to_vec()
    }
}
