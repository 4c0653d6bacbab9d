//! Frames read and written.

use crate::refusal::answer;
use crate::{ffi, FrameKind, Refusal};

/// The fields of a frame that its sender chooses.
#[derive(Clone, Copy, Debug, Default, PartialEq, Eq)]
pub struct Header {
    /// The number of the frame's [kind](crate::FrameKind).
    pub kind: u32,
    /// The first identifier of the method.
    pub package: u32,
    /// The second.
    pub service: u32,
    /// The third.
    pub method: u32,
    /// The number of the call.
    pub correlation: u64,
}

impl Header {
    /// The frame's kind. A frame that was read has one.
    pub fn frame_kind(&self) -> Option<FrameKind> {
        FrameKind::from_number(self.kind)
    }
}

/// What the bytes at hand say about the frame that starts at the first of them.
#[derive(Clone, Copy, Debug, PartialEq, Eq)]
pub enum FrameRead {
    /// More bytes are needed.
    More,
    /// A whole frame, with the place and length of its payload in the bytes.
    Whole {
        /// Its header.
        header: Header,
        /// Where its payload starts.
        place: usize,
        /// How many bytes its payload has.
        length: usize,
    },
}

/// Reads the first frame; each field is judged once it is whole.
///
/// ```
/// use arf::{read_frame, write_frame, FrameRead, Header};
///
/// let header = Header { kind: 1, package: 1, service: 2, method: 3, correlation: 9 };
/// let mut out = [0; 64];
/// let n = write_frame(&header, &[0x01, 0x07], &mut out).unwrap();
/// let whole = FrameRead::Whole { header, place: 26, length: 2 };
/// assert_eq!(read_frame(&out[..n]), Ok(whole));
/// assert_eq!(read_frame(&out[..n - 1]), Ok(FrameRead::More));
/// assert_eq!(read_frame(&[0xAF, 0x02]).unwrap_err().number, 2);
/// ```
pub fn read_frame(bytes: &[u8]) -> Result<FrameRead, Refusal> {
    let mut cells = [0; 7];
    let number = ffi::read_frame(bytes, &mut cells);
    let [kind, package, service, method, correlation, place, length] = ffi::one_by_one(&cells);
    if number == 1 {
        return Ok(FrameRead::More);
    }
    let header = Header {
        kind: kind as u32,
        package: package as u32,
        service: service as u32,
        method: method as u32,
        correlation,
    };
    let whole = FrameRead::Whole {
        header,
        place: place as usize,
        length: length as usize,
    };
    answer(number, 0, whole)
}

/// Writes a frame and gives its length. A refusal leaves the output as it was.
///
/// ```
/// let header = arf::Header { kind: 3, ..Default::default() };
/// let mut out = [0; 26];
/// assert_eq!(arf::write_frame(&header, &[], &mut out), Ok(26));
/// assert_eq!(arf::write_frame(&header, &[], &mut []).unwrap_err().number, 52);
/// ```
pub fn write_frame(header: &Header, payload: &[u8], out: &mut [u8]) -> Result<usize, Refusal> {
    let identifiers = [header.package, header.service, header.method];
    let mut cells = [0];
    let number = ffi::write_frame(
        header.kind,
        identifiers,
        header.correlation,
        payload,
        out,
        &mut cells,
    );
    answer(number, 0, cells[0] as usize)
}

/// Writes the frame of a header and of the value that a sheet shows over its
/// bytes, and gives the frame's length: the bytes that [`write`](crate::write) and then
/// [`write_frame`] give, straight to the output. A refusal leaves the output as
/// it was, and what stands after the frame stays as it was too; [`MAX_FRAME`](crate::MAX_FRAME)
/// bytes are room enough for any frame. It is fastest where the root's row has
/// the payload's length, as in a sheet that was read.
///
/// The refusals, in their order: the table's, 4 for the header's kind, 46, those
/// of [`write`](crate::write) for its rows, 7 for the payload and 52 for the whole frame.
///
/// ```
/// // uint8, and a struct with one such field.
/// let words = [6u32, 0, 0, 16, 0, 1, 0, 0, 24, 32, 32, 1];
/// let schema: Vec<u8> = words.iter().flat_map(|word| word.to_le_bytes()).collect();
/// let header = arf::Header { kind: 1, package: 1, service: 2, method: 3, correlation: 9 };
/// let sheet = [1, 0, 2, 1, 0, 1, 1, 0];
/// let mut out = [0; 28];
/// let length = arf::write_value_frame(&header, &schema, 1, &sheet, &[0x01, 0x07], &mut out);
/// assert_eq!(length, Ok(28));
///
/// let mut expected = [0; 28];
/// arf::write_frame(&header, &[0x01, 0x07], &mut expected).unwrap();
/// assert_eq!(out, expected);
/// ```
///
/// Type [`NO_VALUE`](crate::NO_VALUE) with an empty sheet is an empty payload; a row there is
/// left over. The table is checked all the same, and the bytes are not looked at.
///
/// ```
/// let empty = [0, 0, 0, 0, 0, 0, 0, 0, 0, 0, 0, 0, 1, 0, 0, 0];
/// let header = arf::Header { kind: 3, ..Default::default() };
/// let mut out = [0; 26];
/// let length = arf::write_value_frame(&header, &empty, arf::NO_VALUE, &[], &[], &mut out);
/// assert_eq!(length, Ok(26));
///
/// let row = [0; 4];
/// let refused = arf::write_value_frame(&header, &empty, arf::NO_VALUE, &row, &[], &mut out);
/// assert_eq!(refused, Err(arf::Refusal { number: 50, place: 0 }));
/// ```
pub fn write_value_frame(
    header: &Header,
    schema: &[u8],
    type_number: u32,
    sheet: &[u32],
    bytes: &[u8],
    out: &mut [u8],
) -> Result<usize, Refusal> {
    let mut cells = [0; 2];
    let number = ffi::write_value_frame(
        [header.kind, header.package, header.service, header.method],
        header.correlation,
        schema,
        (type_number, sheet, bytes),
        out,
        &mut cells,
    );
    answer(number, cells[0], cells[1] as usize)
}
