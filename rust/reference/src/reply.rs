//! What a call says.

/// What a call says: a refusal's number alone, or an answer.
#[derive(Clone, Copy, PartialEq, Eq, Debug)]
pub enum Reply {
    /// Refused by this number (1 to 8, or 10); no byte was changed anywhere.
    Refused(u8),
    /// Carried out.
    Answered {
        /// 0 done, 1 waiting, 2 admitted, 3 joined, 4 left, 5 release finished, 9 nobody can
        /// step.
        number: u8,
        /// The admitted module, where the number is 2.
        admitted: Option<u8>,
        /// The log's length, where the log was taken.
        log_length: Option<u16>,
    },
}

impl Reply {
    /// A bare answer number, with nothing to carry besides.
    pub const fn answered(number: u8) -> Reply {
        Reply::Answered {
            number,
            admitted: None,
            log_length: None,
        }
    }

    /// Answer 2: this module was admitted.
    pub const fn admitted(module: u8) -> Reply {
        Reply::Answered {
            number: 2,
            admitted: Some(module),
            log_length: None,
        }
    }

    /// Answer 0 to taking the log, with its length.
    pub const fn log_taken(length: u16) -> Reply {
        Reply::Answered {
            number: 0,
            admitted: None,
            log_length: Some(length),
        }
    }
}
