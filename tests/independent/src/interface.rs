// The twelve functions of libteldruf.a as a host calls them. Each run is lent whole, as a slice; so
// runs lent in one call are apart.

use crate::parts::Triple;

extern "C" {
    fn teldruf_read_pgm(file: *const u8, file_len: usize, number: u64, head: *mut u64) -> u64;
    fn teldruf_write_pgm(
        picture: *const u8,
        picture_len: usize,
        width: u32,
        height: u32,
        maximum: u32,
        buffer: *mut u8,
        buffer_len: usize,
    ) -> u64;
    fn teldruf_build(
        picture: *const u8,
        picture_len: usize,
        width: u32,
        height: u32,
        attribute: u32,
        neighbours: u32,
        workspace: *mut u32,
        workspace_len: usize,
    ) -> u64;
    fn teldruf_open(
        picture: *const u8,
        picture_len: usize,
        width: u32,
        height: u32,
        attribute: u32,
        neighbours: u32,
        threshold: u32,
        workspace: *mut u32,
        workspace_len: usize,
        output: *mut u8,
        output_len: usize,
    ) -> u64;
    fn teldruf_map(
        picture: *const u8,
        picture_len: usize,
        width: u32,
        height: u32,
        attribute: u32,
        neighbours: u32,
        steps: *const u32,
        steps_len: usize,
        gap: u32,
        workspace: *mut u32,
        workspace_len: usize,
        residue: *mut u8,
        residue_len: usize,
        index: *mut u16,
        index_len: usize,
    ) -> u64;
    fn teldruf_dark_map(
        picture: *const u8,
        picture_len: usize,
        width: u32,
        height: u32,
        attribute: u32,
        neighbours: u32,
        steps: *const u32,
        steps_len: usize,
        gap: u32,
        workspace: *mut u32,
        workspace_len: usize,
        residue: *mut u8,
        residue_len: usize,
        index: *mut u16,
        index_len: usize,
    ) -> u64;
    fn teldruf_combined_map(
        picture: *const u8,
        picture_len: usize,
        width: u32,
        height: u32,
        attribute: u32,
        neighbours: u32,
        steps: *const u32,
        steps_len: usize,
        gap: u32,
        workspace: *mut u32,
        workspace_len: usize,
        residue: *mut u8,
        residue_len: usize,
        index: *mut u16,
        index_len: usize,
        contrast: *mut i16,
        contrast_len: usize,
    ) -> u64;
    fn teldruf_open_triple(
        picture: *const u8,
        picture_len: usize,
        width: u32,
        height: u32,
        neighbours: u32,
        area: u32,
        rows: u32,
        columns: u32,
        workspace: *mut u32,
        workspace_len: usize,
        output: *mut u8,
        output_len: usize,
    ) -> u64;
    fn teldruf_map_triples(
        picture: *const u8,
        picture_len: usize,
        width: u32,
        height: u32,
        neighbours: u32,
        steps: *const u32,
        steps_len: usize,
        gap: u32,
        workspace: *mut u32,
        workspace_len: usize,
        residue: *mut u8,
        residue_len: usize,
        index: *mut u16,
        index_len: usize,
    ) -> u64;
    fn teldruf_dark_map_triples(
        picture: *const u8,
        picture_len: usize,
        width: u32,
        height: u32,
        neighbours: u32,
        steps: *const u32,
        steps_len: usize,
        gap: u32,
        workspace: *mut u32,
        workspace_len: usize,
        residue: *mut u8,
        residue_len: usize,
        index: *mut u16,
        index_len: usize,
    ) -> u64;
    fn teldruf_combined_map_triples(
        picture: *const u8,
        picture_len: usize,
        width: u32,
        height: u32,
        neighbours: u32,
        steps: *const u32,
        steps_len: usize,
        gap: u32,
        workspace: *mut u32,
        workspace_len: usize,
        residue: *mut u8,
        residue_len: usize,
        index: *mut u16,
        index_len: usize,
        contrast: *mut i16,
        contrast_len: usize,
    ) -> u64;
    fn teldruf_view_row(
        light: *const u8,
        light_len: usize,
        dark: *const u8,
        dark_len: usize,
        width: u32,
        height: u32,
        row: u32,
        side: u32,
    ) -> u64;
}

/// What a call is given as steps: thresholds of the attribute that it names, or triples, with which
/// it names none.
#[derive(Clone, Copy, Debug, PartialEq)]
pub enum Given {
    Thresholds,
    Triples,
}

/// Width, height, attribute and number of neighbours as a call names them.
#[derive(Clone, Copy, Debug)]
pub struct Numbers {
    pub width: u32,
    pub height: u32,
    pub attribute: u32,
    pub neighbours: u32,
}

pub fn read_pgm(file: &[u8], number: u64, head: &mut [u64]) -> u64 {
    assert_eq!(head.len(), 4);
    unsafe { teldruf_read_pgm(file.as_ptr(), file.len(), number, head.as_mut_ptr()) }
}

pub fn write_pgm(picture: &[u8], width: u32, height: u32, maximum: u32, buffer: &mut [u8]) -> u64 {
    unsafe {
        teldruf_write_pgm(
            picture.as_ptr(),
            picture.len(),
            width,
            height,
            maximum,
            buffer.as_mut_ptr(),
            buffer.len(),
        )
    }
}

pub fn build(picture: &[u8], numbers: Numbers, workspace: &mut [u32]) -> u64 {
    unsafe {
        teldruf_build(
            picture.as_ptr(),
            picture.len(),
            numbers.width,
            numbers.height,
            numbers.attribute,
            numbers.neighbours,
            workspace.as_mut_ptr(),
            workspace.len(),
        )
    }
}

pub fn open(
    picture: &[u8],
    numbers: Numbers,
    threshold: u32,
    workspace: &mut [u32],
    output: &mut [u8],
) -> u64 {
    unsafe {
        teldruf_open(
            picture.as_ptr(),
            picture.len(),
            numbers.width,
            numbers.height,
            numbers.attribute,
            numbers.neighbours,
            threshold,
            workspace.as_mut_ptr(),
            workspace.len(),
            output.as_mut_ptr(),
            output.len(),
        )
    }
}

/// The numbers but the attribute are named.
pub fn open_triple(
    picture: &[u8],
    numbers: Numbers,
    [area, rows, columns]: Triple,
    workspace: &mut [u32],
    output: &mut [u8],
) -> u64 {
    unsafe {
        teldruf_open_triple(
            picture.as_ptr(),
            picture.len(),
            numbers.width,
            numbers.height,
            numbers.neighbours,
            area,
            rows,
            columns,
            workspace.as_mut_ptr(),
            workspace.len(),
            output.as_mut_ptr(),
            output.len(),
        )
    }
}

/// The three map calls: of the picture, of 255 less each grey, and of both.
#[derive(Clone, Copy, Debug, PartialEq)]
pub enum MapCall {
    Light,
    Dark,
    Combined,
}

pub const MAP_CALLS: [MapCall; 3] = [MapCall::Light, MapCall::Dark, MapCall::Combined];

impl MapCall {
    pub fn name(self, given: Given) -> &'static str {
        match (self, given) {
            (MapCall::Light, Given::Thresholds) => "map",
            (MapCall::Dark, Given::Thresholds) => "dark map",
            (MapCall::Combined, Given::Thresholds) => "combined map",
            (MapCall::Light, Given::Triples) => "map triples",
            (MapCall::Dark, Given::Triples) => "dark map triples",
            (MapCall::Combined, Given::Triples) => "combined map triples",
        }
    }

    /// Residues, indices and, of the combined call, contrasts.
    pub fn outputs(self) -> usize {
        match self {
            MapCall::Light | MapCall::Dark => 2,
            MapCall::Combined => 3,
        }
    }
}

/// What a map call names and is lent.
pub struct Mapping<'a> {
    pub picture: &'a [u8],
    pub numbers: Numbers,
    pub given: Given,
    /// One word to a threshold, three to a triple.
    pub steps: &'a [u32],
    pub gap: u32,
    pub workspace: &'a mut [u32],
    pub residue: &'a mut [u8],
    pub index: &'a mut [u16],
    /// Lent to the combined call alone.
    pub contrast: &'a mut [i16],
}

/// The arguments of each map call, in their order; in brackets the attribute, if one is named.
macro_rules! made {
    ($call:ident, $lent:expr, [$($attribute:expr)?] $(, $further:expr)*) => {
        unsafe {
            $call(
                $lent.picture.as_ptr(),
                $lent.picture.len(),
                $lent.numbers.width,
                $lent.numbers.height,
                $($attribute,)?
                $lent.numbers.neighbours,
                $lent.steps.as_ptr(),
                $lent.steps.len(),
                $lent.gap,
                $lent.workspace.as_mut_ptr(),
                $lent.workspace.len(),
                $lent.residue.as_mut_ptr(),
                $lent.residue.len(),
                $lent.index.as_mut_ptr(),
                $lent.index.len(),
                $($further,)*
            )
        }
    };
}

pub fn map(call: MapCall, lent: Mapping) -> u64 {
    let attribute = lent.numbers.attribute;
    let (contrast, entries) = (lent.contrast.as_mut_ptr(), lent.contrast.len());
    match (call, lent.given) {
        (MapCall::Light, Given::Thresholds) => made!(teldruf_map, lent, [attribute]),
        (MapCall::Dark, Given::Thresholds) => made!(teldruf_dark_map, lent, [attribute]),
        (MapCall::Combined, Given::Thresholds) => {
            made!(teldruf_combined_map, lent, [attribute], contrast, entries)
        }
        (MapCall::Light, Given::Triples) => made!(teldruf_map_triples, lent, []),
        (MapCall::Dark, Given::Triples) => made!(teldruf_dark_map_triples, lent, []),
        (MapCall::Combined, Given::Triples) => {
            made!(teldruf_combined_map_triples, lent, [], contrast, entries)
        }
    }
}

/// The numbers that a viewer names.
#[derive(Clone, Copy, Debug)]
pub struct View {
    pub width: u32,
    pub height: u32,
    pub row: u32,
    pub side: u32,
}

pub fn view_row(light: &[u8], dark: &[u8], view: View) -> u64 {
    unsafe {
        teldruf_view_row(
            light.as_ptr(),
            light.len(),
            dark.as_ptr(),
            dark.len(),
            view.width,
            view.height,
            view.row,
            view.side,
        )
    }
}
