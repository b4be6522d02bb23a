//! The printed page of an image, as document 02 (CR 1) says it.

use crate::images::plain;
use std::fmt::Write;

/// How many characters a line has, its newline apart.
pub const LINE: usize = 36;

/// How many bytes the longest page has, and the shortest.
pub const LONGEST: usize = 94 * (LINE + 1);
pub const SHORTEST: usize = 2 * (LINE + 1);

/// The page of these bytes, if document 01 reads an image in them.
pub fn page(image: &[u8]) -> Option<String> {
    let lists = plain(image)?;
    let mut page = String::new();
    for (number, points) in (1..).zip(&lists.snippets) {
        print(&format!("S{number:02}"), points, &mut page);
    }
    for (sequence, bytes) in sequences(image).into_iter().enumerate() {
        let frames = cut(bytes);
        assert_eq!(frames.len(), lists.sequences[sequence].len(), "{image:02X?}");
        for (number, frame) in (1..).zip(frames) {
            print(&format!("F{sequence:02} {number:02}"), frame, &mut page);
        }
    }
    Some(page)
}

/// A line: its head, a blank, two hexadecimal capitals for each byte, and blanks to its end.
fn print(head: &str, bytes: &[u8], page: &mut String) {
    let end = page.len() + LINE;
    page.push_str(head);
    page.push(' ');
    for byte in bytes {
        write!(page, "{byte:02X}").unwrap();
    }
    assert!(page.len() <= end, "{page}");
    while page.len() < end {
        page.push(' ');
    }
    page.push('\n');
}

/// The bytes of each sequence of an image.
fn sequences(image: &[u8]) -> Vec<&[u8]> {
    let (s, q) = (usize::from(image[0]), usize::from(image[1]));
    let ends = &image[1 + s..2 + s + q];
    ends.windows(2).map(|it| &image[usize::from(it[0]) + 1..=usize::from(it[1])]).collect()
}

/// The bytes of each frame: a second byte has bit 7 set and follows a first; a third follows if the second has bit 2 set.
fn cut(mut bytes: &[u8]) -> Vec<&[u8]> {
    let mut frames = Vec::new();
    while !bytes.is_empty() {
        let len = match bytes.get(1) {
            Some(second) if second & 0x80 != 0 => 2 + usize::from(second & 0x04 != 0),
            _ => 1,
        };
        let (frame, rest) = bytes.split_at(len);
        frames.push(frame);
        bytes = rest;
    }
    frames
}
