//! The one place where the buffers of calls are made, filled and made larger.

use crate::calls::{Answer, LineAnswer};
use crate::refusal::Refusal;

/// How much a call is given at first to write into.
pub(crate) struct Room {
    /// The number of bytes.
    pub(crate) bytes: usize,
    /// The number of answers of lines.
    pub(crate) lines: usize,
}

/// What a call writes, as a vector. It is called with so much room at first.
pub(crate) fn filled(
    room: usize,
    call: impl FnMut(&mut [u8]) -> Answer,
) -> Result<Vec<u8>, Refusal> {
    let mut bytes = Vec::new();
    append(&mut bytes, room, call)?;
    Ok(bytes)
}

/// As `filled`, of a call that writes a text.
pub(crate) fn filled_text(
    room: usize,
    call: impl FnMut(&mut [u8]) -> Answer,
) -> Result<String, Refusal> {
    String::from_utf8(filled(room, call)?).map_err(|_| Refusal::NotUtf8)
}

/// Appends what a call writes, and returns how many bytes that is. After a refusal the vector has
/// what it had before.
pub(crate) fn append(
    bytes: &mut Vec<u8>,
    room: usize,
    mut call: impl FnMut(&mut [u8]) -> Answer,
) -> Result<usize, Refusal> {
    let room = Room { bytes: room, lines: 0 };
    append_with_lines(bytes, &mut Vec::new(), room, |bytes, _| call(bytes))
}

/// As `append`, of a call that also answers lines.
pub(crate) fn append_with_lines(
    bytes: &mut Vec<u8>,
    lines: &mut Vec<LineAnswer>,
    room: Room,
    call: impl FnMut(&mut [u8], &mut [LineAnswer]) -> Answer,
) -> Result<usize, Refusal> {
    let (bytes_before, lines_before) = (bytes.len(), lines.len());
    let written = write_after(bytes, lines, room, call);
    let (new_bytes, new_lines) = *written.as_ref().unwrap_or(&(0, 0));
    bytes.truncate(bytes_before + new_bytes);
    lines.truncate(lines_before + new_lines);
    written.map(|_| new_bytes)
}

/// Makes room after what the vectors have, and calls with it. Where it is too small, the answer
/// says what is needed, so one more call is enough.
fn write_after(
    bytes: &mut Vec<u8>,
    lines: &mut Vec<LineAnswer>,
    room: Room,
    mut call: impl FnMut(&mut [u8], &mut [LineAnswer]) -> Answer,
) -> Result<(usize, usize), Refusal> {
    let (bytes_before, lines_before) = (bytes.len(), lines.len());
    make_room(bytes, bytes_before, room.bytes)?;
    make_room(lines, lines_before, room.lines)?;
    let mut answer = call(&mut bytes[bytes_before..], &mut lines[lines_before..]);
    if answer.is_too_small() {
        make_room(bytes, bytes_before, size(answer.bytes)?)?;
        make_room(lines, lines_before, size(answer.lines)?)?;
        answer = call(&mut bytes[bytes_before..], &mut lines[lines_before..]);
    }
    let answer = answer.accepted()?;
    Ok((size(answer.bytes)?, size(answer.lines)?))
}

/// Has the vector have so much room at least after the items that it had before.
fn make_room<T: Clone + Default>(
    items: &mut Vec<T>,
    before: usize,
    room: usize,
) -> Result<(), Refusal> {
    let len = before.saturating_add(room);
    if items.len() < len {
        reserve(items, len - items.len())?;
        items.resize(len, T::default());
    }
    Ok(())
}

/// Has the vector have memory for `more` items more.
pub(crate) fn reserve<T>(items: &mut Vec<T>, more: usize) -> Result<(), Refusal> {
    items.try_reserve(more).map_err(|_| Refusal::Memory)
}

/// A size of the library's as one of this machine's.
pub(crate) fn size(bytes: u64) -> Result<usize, Refusal> {
    match isize::try_from(bytes) {
        Ok(size) => Ok(size.unsigned_abs()),
        Err(_) => Err(Refusal::TooLarge { bytes }),
    }
}

#[cfg(test)]
mod tests {
    use super::{append, append_with_lines, filled, size, Room};
    use crate::calls::{Answer, LineAnswer};
    use crate::refusal::Refusal;

    fn answer(status: u32, bytes: u64, lines: u64) -> Answer {
        Answer { status, detail: 0, place: 0, bytes, lines }
    }

    #[test]
    fn a_small_buffer_is_made_larger_once() {
        let mut lens = Vec::new();
        let bytes = filled(2, |buffer| {
            lens.push(buffer.len());
            answer(u32::from(buffer.len() < 5), 5, 0)
        });
        assert_eq!(bytes, Ok(vec![0; 5]));
        assert_eq!(lens, [2, 5]);
    }

    #[test]
    fn a_buffer_that_stays_too_small_is_refused() {
        let mut calls = 0;
        let refused = filled(0, |_| {
            calls += 1;
            answer(1, 8, 0)
        });
        assert_eq!((refused, calls), (Err(Refusal::TooLarge { bytes: 8 }), 2));
    }

    #[test]
    fn sizes_that_no_buffer_has_are_refused() {
        let mut bytes = b"ab".to_vec();
        let refused = append(&mut bytes, 4, |_| answer(1, u64::MAX, 0));
        assert_eq!(refused, Err(Refusal::TooLarge { bytes: u64::MAX }));
        assert_eq!(append(&mut bytes, 4, |_| answer(1, 1 << 62, 0)), Err(Refusal::Memory));
        assert_eq!(append(&mut bytes, usize::MAX, |_| answer(0, 0, 0)), Err(Refusal::Memory));
        assert_eq!(bytes, b"ab");
        assert_eq!(size(1 << 63), Err(Refusal::TooLarge { bytes: 1 << 63 }));
    }

    #[test]
    fn what_is_written_stands_after_what_was_there() {
        let (mut bytes, mut lines) = (b"ab".to_vec(), vec![LineAnswer::default(); 3]);
        let room = Room { bytes: 4, lines: 0 };
        let written = append_with_lines(&mut bytes, &mut lines, room, |bytes, lines| {
            bytes[0] = b'c';
            answer(u32::from(lines.is_empty()), 1, 2)
        });
        assert_eq!((written, &bytes[..], lines.len()), (Ok(1), &b"abc"[..], 5));
    }
}
