//! The archive as a desk.

use compare::{Desk, Said};
use mokroshel::{Answer, Image, Marker, Refusal};

use crate::Fence;

/// The archive as a desk. Every buffer and marker that it is lent is [fenced](Fence).
#[derive(Default)]
pub struct ArchiveDesk {
    image: Fence,
    log: Fence,
    marker: Fence,
}

fn said(reply: Result<Answer, Refusal>) -> Said {
    match reply {
        Err(refusal) => Said::refused(refusal.number().into()),
        Ok(answer) => Said {
            module: match answer {
                Answer::Admitted(module) => module,
                _ => 0,
            },
            length: match answer {
                Answer::LogTaken(length) => length as u32,
                _ => 0,
            },
            ..Said::answered(answer.number().into())
        },
    }
}

impl Desk for ArchiveDesk {
    fn name(&self) -> String {
        "archive".into()
    }

    fn set_up(&mut self, image: &mut [u8], n: u32) -> Said {
        said(self.image.lend(image, |image| Image::over(image).set_up(n)))
    }

    fn begin_acquisition(&mut self, image: &mut [u8], p: u32, priority: u32) -> Said {
        said(self.image.lend(image, |image| {
            Image::over(image).begin_acquisition(p, priority)
        }))
    }

    fn begin_release(&mut self, image: &mut [u8], p: u32) -> Said {
        said(
            self.image
                .lend(image, |image| Image::over(image).begin_release(p)),
        )
    }

    fn step(&mut self, image: &mut [u8], p: u32) -> Said {
        said(self.image.lend(image, |image| Image::over(image).step(p)))
    }

    fn take_log(&mut self, image: &mut [u8], log: &mut [u8]) -> Said {
        let ArchiveDesk {
            image: fence,
            log: log_fence,
            ..
        } = self;
        said(fence.lend(image, |image| {
            log_fence.lend(log, |log| Image::over(image).take_log(log))
        }))
    }

    fn turn(&mut self, image: &mut [u8], last: &mut u32) -> Said {
        let mut marker = Marker { last: *last };
        let said = said(self.image.lend(image, |image| {
            self.marker
                .lend_marker(&mut marker, |marker| Image::over(image).turn(marker))
        }));
        *last = marker.last;
        said
    }
}
