//! A link and the four operations by which alone the search knows it.

/// A link: a pointer, an open or closed mark, and a change count of 16 bits.
///
/// The numbers are kept as they stand in the image, so that a link can be read from an image
/// before anybody has judged whether it is sound: `mark` is 1 where the link is closed.
#[derive(Clone, Copy, PartialEq, Eq, Debug)]
pub struct Link {
    /// A module, or 0 for nil.
    pub pointer: u16,
    /// 1 closed, 0 open.
    pub mark: u16,
    /// How often the link was changed, after 65,535 comes 0.
    pub count: u16,
}

impl Link {
    /// The fresh link: nil, closed, count 0.
    pub const FRESH: Link = Link {
        pointer: 0,
        mark: 1,
        count: 0,
    };

    /// Whether the mark is closed.
    pub fn closed(self) -> bool {
        self.mark == 1
    }

    /// Point: another pointer, the mark stays, the count goes up.
    pub fn point(self, pointer: u16) -> Link {
        Link { pointer, ..self }.changed()
    }

    /// Open: the mark is open, the count goes up.
    pub fn open(self) -> Link {
        Link { mark: 0, ..self }.changed()
    }

    /// Close: the mark is closed, the count goes up.
    pub fn close(self) -> Link {
        Link { mark: 1, ..self }.changed()
    }

    /// Swap: if all three parts equal the expected link's, the link that takes this one's place;
    /// if not, the link found, unchanged.
    pub fn swap(self, expected: Link, pointer: u16) -> Result<Link, Link> {
        if self == expected {
            Ok(Link {
                pointer,
                mark: 0,
                ..self
            }
            .changed())
        } else {
            Err(self)
        }
    }

    /// Every change adds 1 to the count, also where it writes what was there already.
    fn changed(self) -> Link {
        Link {
            count: if self.count == 65_535 {
                0
            } else {
                self.count + 1
            },
            ..self
        }
    }
}
