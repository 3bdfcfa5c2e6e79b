//! Document 01, 'The transaction's tape', its last lines, and from 'Each call
//! and when it says no' recovery. Its barriers are document 02 (h)'s.

use crate::device::{check_length, check_work, Command, Device, LINE, PAGE};
use crate::image::{check, read_page_zero, Mark};
use crate::page::two_bytes;
use crate::tape::{self, Group};
use crate::transaction::Fault;
use crate::{refuse, Refusal};

/// "Its answer gives bytes and flushes."
#[derive(Clone, Copy, Debug, PartialEq, Eq)]
pub struct Recovered {
    pub bytes: usize,
    pub flushes: usize,
}

pub fn recover(image: &[u8], work: &mut [u8], tape: &mut [u8]) -> Result<Recovered, Refusal> {
    recover_with(Device::Lines, Fault::None, image, work, tape)
}

/// Document 02 (d): the "recovery call" for modules without line stores.
pub fn recover_words(image: &[u8], work: &mut [u8], tape: &mut [u8]) -> Result<Recovered, Refusal> {
    recover_with(Device::Words, Fault::None, image, work, tape)
}

pub fn recover_with(
    device: Device,
    fault: Fault,
    image: &[u8],
    work: &mut [u8],
    tape: &mut [u8],
) -> Result<Recovered, Refusal> {
    check_length(image)?;
    check_work(image, work)?;
    let Some(zero) = read_page_zero(image) else {
        return refuse(4);
    };
    let (replayed, commands) = match zero.mark {
        // "Recovery with mark 0 gives no commands."
        None => (image.to_vec(), Vec::new()),
        Some(mark) => replay(device, fault, image, mark)?,
    };
    // "4 if .. the replayed image is unsound."
    if check(&replayed).is_err() {
        return refuse(4);
    }
    let bytes = tape::encode(&commands);
    if tape.len() < bytes.len() {
        // "13, work then holding the image."
        work.copy_from_slice(image);
        return refuse(13);
    }
    tape[..bytes.len()].copy_from_slice(&bytes);
    work.copy_from_slice(&replayed);
    Ok(Recovered {
        bytes: bytes.len(),
        flushes: tape::count_flushes(&commands),
    })
}

/// The replayed image, "logged headers and new root in, mark 0", and the tape:
/// "it stores every logged header, then flushes each, both in log order, and
/// goes on as above".
fn replay(
    device: Device,
    fault: Fault,
    image: &[u8],
    mark: Mark,
) -> Result<(Vec<u8>, Vec<Command>), Refusal> {
    let mut replayed = image.to_vec();
    let (mut stores, mut pages) = (Vec::new(), Vec::new());
    for line in 1..=mark.headers {
        let header = &image[line * LINE..][..LINE];
        // "4 if .. logged page numbers repeat or leave 1 to N-1."
        let page = two_bytes(header, 6);
        if page < 1 || page >= image.len() / PAGE || pages.contains(&page) {
            return refuse(4);
        }
        pages.push(page);
        replayed[page * PAGE..][..LINE].copy_from_slice(header);
        stores.extend(tape::header_stores(device, page, header));
    }
    replayed[8..16].copy_from_slice(&(mark.root as u64).to_le_bytes());
    replayed[..8].fill(0);
    let lines: Vec<usize> = pages.into_iter().map(tape::header_line).collect();
    let flushes = tape::flushed(fault, Group::Headers, &lines);
    let end = tape::finish(fault, image, &replayed);
    Ok((replayed, [stores, flushes, end].concat()))
}
