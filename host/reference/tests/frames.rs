//! The frame reader and the frame writer.

mod common;

use common::{written, BYTE};
use reference::frame::Kind;
use reference::{read_frame, write_frame, Frame, FrameAnswer, Header, Reason};

fn header(kind: u32) -> Header {
    Header {
        kind,
        identifiers: [0x0403_0201, 5, 6],
        correlation: 0x0807_0605_0403_0201,
    }
}

fn frame(kind: u32, payload: &[u8]) -> Vec<u8> {
    written(&header(kind), payload)
}

#[test]
fn layout() {
    let bytes = frame(6, b"hi");
    let expected = [
        0xAF, 1, 1, 6, 0, 1, 2, 3, 4, 5, 0, 0, 0, 6, 0, 0, 0, 1, 2, 3, 4, 5, 6, 7, 8, 2, b'h', b'i',
    ];
    assert_eq!(bytes, expected);
    let whole = Frame {
        header: header(6),
        kind: Kind::Response,
        payload_place: 26,
        payload_length: 2,
    };
    assert_eq!(read_frame(&bytes), FrameAnswer::Whole(whole));
    let more = [&bytes[..], &[0xAF, 9]].concat();
    assert_eq!(read_frame(&more), FrameAnswer::Whole(whole));
}

#[test]
fn cut_at_every_point() {
    for payload in [&b""[..], b"hello", &[7; 200]] {
        let bytes = frame(1, payload);
        for length in 0..bytes.len() {
            assert_eq!(read_frame(&bytes[..length]), FrameAnswer::MoreNeeded);
        }
        assert!(matches!(read_frame(&bytes), FrameAnswer::Whole(_)));
    }
}

#[test]
fn a_field_is_judged_once_it_is_whole() {
    let faults = [
        (0, 0xAE, 2, Reason::Magic),
        (1, 0x02, 2, Reason::Magic),
        (2, 0x02, 3, Reason::Version),
        (3, 0x00, 4, Reason::Kind),
        (3, 0x09, 4, Reason::Kind),
        (4, 0x01, 5, Reason::Flags),
    ];
    for (place, byte, whole, reason) in faults {
        let mut bytes = frame(1, b"x");
        bytes[place] = byte;
        for length in 0..=bytes.len() {
            let expected = match length < whole {
                true => FrameAnswer::MoreNeeded,
                false => FrameAnswer::Refused(reason),
            };
            assert_eq!(read_frame(&bytes[..length]), expected);
        }
    }
    assert_eq!(read_frame(&[0]), FrameAnswer::MoreNeeded);
}

#[test]
fn lengths() {
    let start = frame(1, b"")[..25].to_vec();
    let with = |length: &[u8]| read_frame(&[&start[..], length].concat());
    assert_eq!(with(&[0x80; 9]), FrameAnswer::MoreNeeded);
    assert_eq!(with(&[0xFF; 9]), FrameAnswer::MoreNeeded);
    for tenth in (0..=255).filter(|&tenth| tenth != 1) {
        let malformed = [&[0x80; 9][..], &[tenth]].concat();
        assert_eq!(with(&malformed), FrameAnswer::Refused(Reason::FrameLength));
    }
    let above = FrameAnswer::Refused(Reason::PayloadTooLong);
    assert_eq!(with(&[0x81, 0x80, 0x01]), above);
    assert_eq!(with(&[0x80, 0x80, 0x80, 0x01]), above);
    assert_eq!(with(&[&[0xFF; 9][..], &[1]].concat()), above);
    assert_eq!(with(&[&[0x80; 9][..], &[1]].concat()), above);
    assert_eq!(with(&[0x80, 0x80, 0x01]), FrameAnswer::MoreNeeded);
    let limit = [&[0x80, 0x80, 0x01][..], &[0; 16_384]].concat();
    assert!(matches!(with(&limit), FrameAnswer::Whole(_)));
    assert!(matches!(with(&[0]), FrameAnswer::Whole(_)));
}

#[test]
fn lengths_with_spare_groups() {
    let start = frame(1, b"")[..25].to_vec();
    let malformed = FrameAnswer::Refused(Reason::FrameLength);
    // No byte, more than there are, more than the limit.
    for group in [0x80, 0x85, 0xFF] {
        for length in 2..=10 {
            let mut bytes = [&start[..], &vec![group; length - 1]].concat();
            assert_eq!(read_frame(&bytes), FrameAnswer::MoreNeeded);
            bytes.push(0);
            assert_eq!(read_frame(&bytes), malformed);
            bytes.extend([0; 200]);
            assert_eq!(read_frame(&bytes), malformed);
        }
    }
}

#[test]
fn writer_refusals() {
    let mut out = [BYTE; 40];
    let long = vec![0; 16_385];
    for kind in [0, 9, 256, 257, u32::MAX] {
        let answer = write_frame(&header(kind), &long, &mut []);
        assert_eq!(answer, Err(Reason::Kind));
    }
    let answer = write_frame(&header(1), &long, &mut []);
    assert_eq!(answer, Err(Reason::PayloadTooLong));
    for room in 0..28 {
        let answer = write_frame(&header(8), b"hi", &mut out[..room]);
        assert_eq!(answer, Err(Reason::OutputTooSmall));
    }
    assert!(out.iter().all(|&byte| byte == BYTE));
    assert_eq!(write_frame(&header(8), b"hi", &mut out), Ok(28));
    assert!(out[28..].iter().all(|&byte| byte == BYTE));
    let mut large = vec![0; 20_000];
    let answer = write_frame(&header(1), &long[..16_384], &mut large);
    assert_eq!(answer, Ok(25 + 3 + 16_384));
}
