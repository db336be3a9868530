// The scope, "The program": the steps file, and what the program prints for two files.

use crate::causes::is_step_list;
use crate::definition::{Levels, Picture};
use crate::pgm;

const MOST_BYTES: usize = 4096;
const MOST_LISTED: usize = 2048;

/// The program names no other number of neighbours, and no other gap.
const NEIGHBOURS: u32 = 4;
const GAP: u32 = 0;

fn number(text: &[u8]) -> Option<u32> {
    let digits = text.len();
    let leading_zero = digits > 1 && text[0] == b'0';
    if !(1..=7).contains(&digits) || leading_zero || !text.iter().all(u8::is_ascii_digit) {
        return None;
    }
    std::str::from_utf8(text).ok()?.parse().ok()
}

fn word(text: &[u8]) -> Option<&[u8]> {
    let fits = (1..=8).contains(&text.len()) && text.iter().all(u8::is_ascii_lowercase);
    fits.then_some(text)
}

/// The attribute's word and the steps, whatever their values; none if the file is malformed.
fn lines(file: &[u8]) -> Option<(&[u8], Vec<u32>)> {
    let text = file.strip_suffix(b"\n")?;
    let mut lines = text.split(|b| *b == b'\n');
    let named = word(lines.next()?.strip_prefix(b"attribute\t")?)?;
    let mut steps = Vec::new();
    for line in lines {
        steps.push(number(line.strip_prefix(b"step\t")?)?);
    }
    Some((named, steps))
}

/// Attribute and steps, or 13, 3, 4 in this order.
pub fn parse(file: &[u8]) -> Result<(u32, Vec<u32>), u32> {
    let (named, steps) = lines(file).ok_or(13u32)?;
    let attribute = match named {
        b"area" => 1,
        b"height" => 2,
        b"width" => 3,
        _ => return Err(3),
    };
    if !is_step_list(&steps) {
        return Err(4);
    }
    Ok((attribute, steps))
}

fn listing(picture: &Picture, residue: &[u8], index: &[u16]) -> String {
    let mut text = String::from("row\tcol\tgrey\tresidue\tindex\n");
    for p in 0..picture.pixels() {
        let (row, column) = (p / picture.width, p % picture.width);
        let (grey, residue, index) = (picture.greys[p], residue[p], index[p]);
        text += &format!("{row}\t{column}\t{grey}\t{residue}\t{index}\n");
    }
    text
}

fn answer(basin: Option<&[u8]>, steps: Option<&[u8]>) -> Result<String, u32> {
    let basin = basin.ok_or(15u32)?;
    let steps = steps.ok_or(15u32)?;
    if basin.len() > MOST_BYTES || steps.len() > MOST_BYTES {
        return Err(14);
    }
    let head = pgm::read(basin, 1)?;
    let (width, height) = (head.width as usize, head.height as usize);
    let picture = Picture {
        width,
        height,
        greys: basin[head.raster..][..width * height].to_vec(),
    };
    if picture.pixels() > MOST_LISTED {
        return Err(14);
    }
    let (attribute, steps) = parse(steps)?;
    let maps = Levels::of(&picture, NEIGHBOURS).maps(&picture, attribute, &steps, &[GAP]);
    let (residue, index) = &maps[0];
    Ok(listing(&picture, residue, index))
}

/// What the program prints; a file that cannot be opened or read is none.
pub fn printed(basin: Option<&[u8]>, steps: Option<&[u8]>) -> String {
    match answer(basin, steps) {
        Ok(text) => text,
        Err(number) => format!("refused\t{number}\n"),
    }
}
