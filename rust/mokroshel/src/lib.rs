//! # The deck lock's desk
//!
//! One lock for 1 to 64 modules, handed on by priority. All of it is an **image** in a buffer of
//! the caller's: a record for each module, a log of admissions, and a trailer with the lock word at
//! the very end. What lies in front of them are owner's bytes, which no call changes.
//!
//! The calls are written and proved in Rattle; this package is their interface for Rust, with no
//! `std` and no dependency. A call takes any buffer and any number. It is refused by a [`Refusal`]
//! and changes no byte, or it answers by an [`Answer`]. It allocates nothing; how much stack it can
//! take is in `rust/stack.txt`: on x86-64 152 bytes for a step.
//!
//! A module takes the lock by [beginning an acquisition](Image::begin_acquisition) and
//! [steps](Image::step) until one answers [`Answer::Admitted`]. It gives the lock back by
//! [beginning a release](Image::begin_release) and steps until one answers
//! [`Answer::ReleaseFinished`]. Each step makes one access to shared data, so the caller decides how
//! the modules' steps fall between each other's. Or it lets the desk [hand out
//! turns](Image::turn), by which nobody is left out.
//!
//! ```
//! use mokroshel::{table_length, Answer, Image, Refusal};
//!
//! // Set up a table of three modules.
//! let mut image = Image::over([0; table_length(3)]);
//! assert_eq!(image.step(1), Err(Refusal::Unsound));
//! assert_eq!(image.set_up(3), Ok(Answer::Done));
//!
//! // Module 1, priority 10: the lock is free, so after 4 steps it is inside.
//! assert_eq!(image.begin_acquisition(1, 10), Ok(Answer::Done));
//! assert_eq!(image.step(1), Ok(Answer::Done));
//! assert_eq!(image.step(1), Ok(Answer::Joined));
//! assert_eq!(image.step(1), Ok(Answer::Done));
//! assert_eq!(image.step(1), Ok(Answer::Admitted(1)));
//! let bytes = image.bytes();
//! assert_eq!(bytes[0], 13); // stage
//! assert_eq!(bytes[8..12], [0, 0, 0, 2]); // link: nil, open, count 2
//! assert_eq!(bytes[12], 255); // record priority, raised while it is the first
//! assert_eq!(bytes[bytes.len() - 12], 1); // lock word
//!
//! // With nobody behind it, a release is 3 steps.
//! assert_eq!(image.begin_release(1), Ok(Answer::Done));
//! assert_eq!(image.step(1), Ok(Answer::Left));
//! assert_eq!(image.step(1), Ok(Answer::Done));
//! assert_eq!(image.step(1), Ok(Answer::ReleaseFinished));
//!
//! // Take the log: one admission was held, and none is now.
//! let mut log = [0; 256];
//! assert_eq!(image.take_log(&mut log), Ok(Answer::LogTaken(1)));
//! assert_eq!(log[..1], [1]);
//! assert_eq!(image.take_log(&mut log), Ok(Answer::LogTaken(0)));
//! ```
#![no_std]

mod exports;
mod reply;

pub use reply::{Answer, Refusal};

/// How many bytes a table of n modules takes.
///
/// ```
/// assert_eq!(mokroshel::table_length(1), 284);
/// assert_eq!(mokroshel::table_length(64), 1292);
/// ```
pub const fn table_length(n: usize) -> usize {
    16 * n + 268
}

/// The turn marker: the module that was served last. A first marker of n makes module 1 the first.
#[derive(Clone, Copy, PartialEq, Eq, Debug)]
#[repr(C)]
pub struct Marker {
    /// The module's number.
    pub last: u32,
}

/// An image in a buffer, borrowed or owned.
///
/// Nothing is asked of the buffer: every call but [`set_up`](Image::set_up) checks the image first.
///
/// ```
/// use mokroshel::{Answer, Image};
///
/// // In a borrowed buffer that is longer than the table, the first bytes are the owner's.
/// let mut buffer = [7; 300];
/// assert_eq!(Image::over(&mut buffer[..]).set_up(1), Ok(Answer::Done));
/// assert_eq!(buffer[..16], [7; 16]);
///
/// // It is all in the bytes: the next image over them goes on from there.
/// assert_eq!(Image::over(&mut buffer[..]).begin_acquisition(1, 254), Ok(Answer::Done));
/// ```
#[derive(Clone, Copy, Debug)]
pub struct Image<B> {
    buffer: B,
}

impl<B: AsRef<[u8]> + AsMut<[u8]>> Image<B> {
    /// The image in this buffer, whatever it holds.
    pub fn over(buffer: B) -> Image<B> {
        Image { buffer }
    }

    /// All bytes of the buffer, the owner's too.
    pub fn bytes(&self) -> &[u8] {
        self.buffer.as_ref()
    }

    /// The buffer.
    pub fn into_buffer(self) -> B {
        self.buffer
    }

    /// Sets up a fresh table of n modules at the end of the buffer, whatever was there.
    ///
    /// Refused if n is not 1 to 64, and if the buffer is shorter than [`table_length`] says.
    ///
    /// ```
    /// use mokroshel::{Image, Refusal};
    ///
    /// let mut image = Image::over([0; 284]);
    /// assert_eq!(image.set_up(65), Err(Refusal::WrongNumberOfModules));
    /// assert_eq!(image.set_up(2), Err(Refusal::ShortBuffer));
    /// assert_eq!(image.bytes(), [0; 284]);
    /// assert!(image.set_up(1).is_ok());
    /// ```
    pub fn set_up(&mut self, n: u32) -> Result<Answer, Refusal> {
        reply::unpack(exports::set_up(self.buffer.as_mut(), n))
    }

    /// Begins an acquisition by the idle module p, with a priority of 1 to 254; higher is more
    /// urgent.
    ///
    /// ```
    /// use mokroshel::{Answer, Image, Refusal};
    ///
    /// let mut image = Image::over([0; 284]);
    /// image.set_up(1)?;
    /// assert_eq!(image.begin_acquisition(2, 255), Err(Refusal::NoSuchModule));
    /// assert_eq!(image.begin_acquisition(1, 255), Err(Refusal::WrongPriority));
    /// assert_eq!(image.begin_acquisition(1, 254), Ok(Answer::Done));
    /// assert_eq!(image.begin_acquisition(1, 254), Err(Refusal::WrongStage));
    /// # Ok::<(), Refusal>(())
    /// ```
    pub fn begin_acquisition(&mut self, p: u32, priority: u32) -> Result<Answer, Refusal> {
        reply::unpack(exports::begin_acquisition(
            self.buffer.as_mut(),
            p,
            priority,
        ))
    }

    /// Begins a release by the module p, which is inside.
    pub fn begin_release(&mut self, p: u32) -> Result<Answer, Refusal> {
        reply::unpack(exports::begin_release(self.buffer.as_mut(), p))
    }

    /// Takes one step for the module p, which is seeking or releasing.
    ///
    /// A step that would admit is refused while the log holds 256; [take it](Image::take_log), and
    /// step again.
    ///
    /// ```
    /// use mokroshel::{Answer, Image, Refusal};
    ///
    /// let mut image = Image::over([0; 300]);
    /// image.set_up(2)?;
    /// for p in [1, 2] {
    ///     image.begin_acquisition(p, 10)?;
    ///     while !matches!(image.step(p)?, Answer::Admitted(_) | Answer::Waiting) {}
    /// }
    /// // Module 1 is inside and 2 stands behind it until 1 has released.
    /// assert_eq!(image.step(1), Err(Refusal::WrongStage));
    /// assert_eq!(image.step(2), Ok(Answer::Waiting));
    /// image.begin_release(1)?;
    /// while image.step(1)? != Answer::ReleaseFinished {}
    /// assert_eq!(image.step(2), Ok(Answer::Admitted(2)));
    /// # Ok::<(), Refusal>(())
    /// ```
    pub fn step(&mut self, p: u32) -> Result<Answer, Refusal> {
        reply::unpack(exports::step(self.buffer.as_mut(), p))
    }

    /// Hands out a turn: takes one step for the first module after the marker around the table, the
    /// marker's own module last, that is neither idle nor inside. The marker then tells which it was.
    /// A module that is neither idle nor inside over n accepted turns is stepped in one of them,
    /// whatever calls fall between; and from the begin of a release with somebody behind it in the
    /// line, the next one is admitted within 6n - 1 accepted turns.
    ///
    /// If nobody can step, the answer is [`Answer::Nobody`]. Then, and where the turn is refused,
    /// image and marker stay as they were. A turn is refused if the marker is not 1 to n, and after
    /// that as the step would be: while the log is full every turn may meet the same module, so
    /// [take it](Image::take_log).
    ///
    /// ```
    /// use mokroshel::{Answer, Image, Marker, Refusal};
    ///
    /// let mut image = Image::over([0; 300]);
    /// image.set_up(2)?;
    /// let mut marker = Marker { last: 2 };
    /// assert_eq!(image.turn(&mut marker), Ok(Answer::Nobody));
    /// image.begin_acquisition(1, 10)?;
    /// image.begin_acquisition(2, 10)?;
    /// // Both in turn, and 1 is the first to have the lock.
    /// let mut served = Vec::new();
    /// while image.turn(&mut marker)? != Answer::Admitted(1) {
    ///     served.push(marker.last);
    /// }
    /// assert_eq!(served, [1, 2, 1, 2, 1, 2]);
    /// assert_eq!(marker, Marker { last: 1 });
    /// assert_eq!(image.turn(&mut Marker { last: 3 }), Err(Refusal::WrongMarker));
    /// # Ok::<(), Refusal>(())
    /// ```
    pub fn turn(&mut self, marker: &mut Marker) -> Result<Answer, Refusal> {
        reply::unpack(exports::turn(self.buffer.as_mut(), marker))
    }

    /// Takes the log: the held admissions go to the first bytes of `log`, oldest first, and the held
    /// log is empty. 256 bytes always suffice.
    ///
    /// ```
    /// use mokroshel::{Answer, Image, Refusal};
    ///
    /// let mut image = Image::over([0; 284]);
    /// image.set_up(1)?;
    /// image.begin_acquisition(1, 10)?;
    /// while image.step(1)? != Answer::Admitted(1) {}
    /// assert_eq!(image.take_log(&mut []), Err(Refusal::ShortLogBuffer));
    /// let mut log = [99; 2];
    /// assert_eq!(image.take_log(&mut log), Ok(Answer::LogTaken(1)));
    /// assert_eq!(log, [1, 99]);
    /// # Ok::<(), Refusal>(())
    /// ```
    pub fn take_log(&mut self, log: &mut [u8]) -> Result<Answer, Refusal> {
        match reply::unpack(exports::take_log(self.buffer.as_mut(), log))? {
            Answer::Done => Ok(Answer::LogTaken(0)),
            answer => Ok(answer),
        }
    }
}
