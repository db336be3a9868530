// Binary PGM by the Netpbm page, the scope, "PGM", and the request that a file holds one picture or
// several end to end.

use crate::causes::pixels;

/// What a picture's header says, and where its raster starts.
#[derive(Clone, Copy, Debug, PartialEq)]
pub struct Head {
    pub width: u32,
    pub height: u32,
    pub maximum: u32,
    pub raster: usize,
}

impl Head {
    /// As the reader writes it.
    pub fn words(&self) -> [u64; 4] {
        let numbers = [self.width, self.height, self.maximum].map(u64::from);
        [numbers[0], numbers[1], numbers[2], self.raster as u64]
    }
}

pub fn is_white(byte: u8) -> bool {
    matches!(byte, 9 | 10 | 13 | 32)
}

/// The bytes after a gap: a white byte, then white bytes and comments, each from # through the
/// next 10 or 13.
fn after_gap(bytes: &[u8]) -> Option<&[u8]> {
    let (first, mut rest) = bytes.split_first()?;
    if !is_white(*first) {
        return None;
    }
    loop {
        match rest.first()? {
            b'#' => {
                let end = rest.iter().position(|b| matches!(b, 10 | 13))?;
                rest = &rest[end + 1..];
            }
            byte if is_white(*byte) => rest = &rest[1..],
            _ => return Some(rest),
        }
    }
}

/// A gap, then a number of 1 to 7 digits; what follows is no digit.
fn gap_and_number(bytes: &[u8]) -> Option<(u32, &[u8])> {
    let text = after_gap(bytes)?;
    let digits = text.iter().take_while(|b| b.is_ascii_digit()).count();
    if !(1..=7).contains(&digits) {
        return None;
    }
    let value = text[..digits]
        .iter()
        .fold(0, |value, digit| value * 10 + u32::from(digit - b'0'));
    Some((value, &text[digits..]))
}

/// Width, height, maximum, and where the raster starts; no value is judged.
fn header(bytes: &[u8]) -> Option<Head> {
    let (width, rest) = gap_and_number(&bytes[2..])?;
    let (height, rest) = gap_and_number(rest)?;
    let (maximum, rest) = gap_and_number(rest)?;
    let (white, raster) = rest.split_first()?;
    is_white(*white).then_some(Head {
        width,
        height,
        maximum,
        raster: bytes.len() - raster.len(),
    })
}

/// The picture that these bytes start with, and the bytes after it. Refused in the order 8, 9, 10, 1,
/// 11, 12.
fn first(bytes: &[u8]) -> Result<(Head, &[u8]), u32> {
    if !bytes.starts_with(b"P5") {
        return Err(8);
    }
    let head = header(bytes).ok_or(9u32)?;
    if !(1..=255).contains(&head.maximum) {
        return Err(10);
    }
    let n = pixels(head.width, head.height)?;
    let (raster, rest) = bytes[head.raster..].split_at_checked(n).ok_or(11u32)?;
    if raster.iter().any(|grey| u32::from(*grey) > head.maximum) {
        return Err(12);
    }
    Ok((head, rest))
}

/// The pictures of a whole file, in which rasters have their places, or the cause of the first that
/// is faulty.
pub type Pictures = Result<Vec<Head>, u32>;

/// An empty file has a faulty picture.
pub fn pictures(file: &[u8]) -> Pictures {
    let mut pictures = Vec::new();
    let mut rest = file;
    while pictures.is_empty() || !rest.is_empty() {
        let start = file.len() - rest.len();
        let (head, after) = first(rest)?;
        pictures.push(Head {
            raster: start + head.raster,
            ..head
        });
        rest = after;
    }
    Ok(pictures)
}

/// The picture of this number, from 1 up. After all other causes, 18 if there is none.
pub fn named(pictures: &Pictures, number: u64) -> Result<Head, u32> {
    let pictures = pictures.as_ref().map_err(|cause| *cause)?;
    let mut numbered = (1..).zip(pictures);
    let found = numbered.find(|(k, _)| *k == number);
    found.map(|(_, head)| *head).ok_or(18)
}

pub fn read(file: &[u8], number: u64) -> Result<Head, u32> {
    named(&pictures(file), number)
}

/// The whole file, or the cause in the order 1, 2, 10, 12, 7.
pub fn write(
    picture: &[u8],
    width: u32,
    height: u32,
    maximum: u32,
    room: usize,
) -> Result<Vec<u8>, u32> {
    let n = pixels(width, height)?;
    if picture.len() != n {
        return Err(2);
    }
    if !(1..=255).contains(&maximum) {
        return Err(10);
    }
    if picture.iter().any(|grey| u32::from(*grey) > maximum) {
        return Err(12);
    }
    let mut file = format!("P5\n{width} {height}\n{maximum}\n").into_bytes();
    file.extend(picture);
    if room < file.len() {
        return Err(7);
    }
    Ok(file)
}
