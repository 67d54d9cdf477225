//! The library's C interface and safe wrappers over it.
//!
//! The wrappers are inlined into the program that calls them, so that a program needs only those
//! functions of the archive that it uses. A slice of no entries still has an aligned pointer that
//! is not null, as Rust gives it.

use crate::screen::View;

mod raw {
    extern "C" {
        pub fn hiwenoka_check_table(table: *const u16, table_len: usize, nodes: *mut u16) -> u16;
        pub fn hiwenoka_layout(
            table: *const u16,
            table_len: usize,
            separation: u16,
            half_widths: *const u16,
            half_widths_len: usize,
            places: *mut i32,
            places_len: usize,
            levels: *mut u16,
            levels_len: usize,
            record: *mut u16,
            record_len: usize,
            work: *mut i32,
            work_len: usize,
            nodes: *mut u16,
            level_count: *mut u16,
            least: *mut i32,
            greatest: *mut i32,
            pairs: *mut u16,
        ) -> u16;
        pub fn hiwenoka_layout_treetex(
            table: *const u16,
            table_len: usize,
            separation: u16,
            half_widths: *const u16,
            half_widths_len: usize,
            extra: u16,
            places: *mut i32,
            places_len: usize,
            levels: *mut u16,
            levels_len: usize,
            record: *mut u16,
            record_len: usize,
            work: *mut i32,
            work_len: usize,
            nodes: *mut u16,
            level_count: *mut u16,
            least: *mut i32,
            greatest: *mut i32,
            pairs: *mut u16,
        ) -> u16;
        pub fn hiwenoka_mirror(
            table: *const u16,
            table_len: usize,
            out: *mut u16,
            out_len: usize,
        ) -> u16;
        pub fn hiwenoka_renumber(
            table: *const u16,
            table_len: usize,
            out: *mut u16,
            out_len: usize,
            map: *mut u16,
            map_len: usize,
        ) -> u16;
        pub fn hiwenoka_read_sheet(
            file: *const u8,
            file_len: usize,
            table: *mut u16,
            table_len: usize,
            tapes: *mut u16,
            tapes_len: usize,
            half_widths: *mut u16,
            half_widths_len: usize,
            nodes: *mut u16,
            separation: *mut u16,
        ) -> u16;
        pub fn hiwenoka_write_sheet(
            table: *const u16,
            table_len: usize,
            separation: u16,
            tapes: *const u16,
            tapes_len: usize,
            half_widths: *const u16,
            half_widths_len: usize,
            out: *mut u8,
            out_len: usize,
            bytes: *mut u16,
        ) -> u16;
        pub fn hiwenoka_list_sheet(
            file: *const u8,
            file_len: usize,
            out: *mut u8,
            out_len: usize,
        ) -> usize;
        pub fn hiwenoka_read_newick(
            text: *const u8,
            text_len: usize,
            table: *mut u16,
            table_len: usize,
            tapes: *mut u16,
            tapes_len: usize,
            nodes: *mut u16,
        ) -> u16;
        pub fn hiwenoka_on_screen(
            across: f64,
            down: f64,
            zoom: f64,
            level: u16,
            place: i32,
            on: *mut u8,
            x: *mut f64,
            y: *mut f64,
        ) -> u16;
        pub fn hiwenoka_small_tree(
            nodes: u16,
            place: u16,
            table: *mut u16,
            table_len: usize,
        ) -> u16;
        pub fn hiwenoka_trees_of_dots(
            nodes: u16,
            dots: *const i32,
            dots_len: usize,
            separation: u16,
            lowest: *mut u16,
            count: *mut u16,
        ) -> u16;
    }
}

#[inline]
pub fn check_table(table: &[u16], nodes: &mut u16) -> u16 {
    // SAFETY: the pointers come from references of the stated lengths, valid for the call.
    unsafe { raw::hiwenoka_check_table(table.as_ptr(), table.len(), nodes) }
}

/// The slices that a layout writes.
pub struct Slices<'a> {
    pub places: &'a mut [i32],
    pub levels: &'a mut [u16],
    pub record: &'a mut [u16],
    pub work: &'a mut [i32],
}

/// What a layout reports besides its number.
#[derive(Clone, Copy, Debug, Default, PartialEq, Eq)]
pub struct Fields {
    pub nodes: u16,
    pub level_count: u16,
    pub least: i32,
    pub greatest: i32,
    pub pairs: u16,
}

#[inline]
pub fn layout(
    table: &[u16],
    separation: u16,
    half_widths: &[u16],
    lent: &mut Slices,
    fields: &mut Fields,
) -> u16 {
    // SAFETY: as in `check_table`; neither slices nor fields overlap.
    unsafe {
        raw::hiwenoka_layout(
            table.as_ptr(),
            table.len(),
            separation,
            half_widths.as_ptr(),
            half_widths.len(),
            lent.places.as_mut_ptr(),
            lent.places.len(),
            lent.levels.as_mut_ptr(),
            lent.levels.len(),
            lent.record.as_mut_ptr(),
            lent.record.len(),
            lent.work.as_mut_ptr(),
            lent.work.len(),
            &mut fields.nodes,
            &mut fields.level_count,
            &mut fields.least,
            &mut fields.greatest,
            &mut fields.pairs,
        )
    }
}

#[inline]
pub fn layout_treetex(
    table: &[u16],
    separation: u16,
    half_widths: &[u16],
    extra: u16,
    lent: &mut Slices,
    fields: &mut Fields,
) -> u16 {
    // SAFETY: as in `layout`.
    unsafe {
        raw::hiwenoka_layout_treetex(
            table.as_ptr(),
            table.len(),
            separation,
            half_widths.as_ptr(),
            half_widths.len(),
            extra,
            lent.places.as_mut_ptr(),
            lent.places.len(),
            lent.levels.as_mut_ptr(),
            lent.levels.len(),
            lent.record.as_mut_ptr(),
            lent.record.len(),
            lent.work.as_mut_ptr(),
            lent.work.len(),
            &mut fields.nodes,
            &mut fields.level_count,
            &mut fields.least,
            &mut fields.greatest,
            &mut fields.pairs,
        )
    }
}

#[inline]
pub fn mirror(table: &[u16], out: &mut [u16]) -> u16 {
    // SAFETY: as in `check_table`; the slices do not overlap.
    unsafe { raw::hiwenoka_mirror(table.as_ptr(), table.len(), out.as_mut_ptr(), out.len()) }
}

#[inline]
pub fn renumber(table: &[u16], out: &mut [u16], map: &mut [u16]) -> u16 {
    // SAFETY: as in `mirror`.
    unsafe {
        raw::hiwenoka_renumber(
            table.as_ptr(),
            table.len(),
            out.as_mut_ptr(),
            out.len(),
            map.as_mut_ptr(),
            map.len(),
        )
    }
}

#[inline]
pub fn read_sheet(
    file: &[u8],
    table: &mut [u16],
    tapes: &mut [u16],
    half_widths: &mut [u16],
    nodes: &mut u16,
    separation: &mut u16,
) -> u16 {
    // SAFETY: as in `mirror`.
    unsafe {
        raw::hiwenoka_read_sheet(
            file.as_ptr(),
            file.len(),
            table.as_mut_ptr(),
            table.len(),
            tapes.as_mut_ptr(),
            tapes.len(),
            half_widths.as_mut_ptr(),
            half_widths.len(),
            nodes,
            separation,
        )
    }
}

#[inline]
pub fn write_sheet(
    table: &[u16],
    separation: u16,
    tapes: &[u16],
    half_widths: &[u16],
    out: &mut [u8],
    bytes: &mut u16,
) -> u16 {
    // SAFETY: as in `mirror`.
    unsafe {
        raw::hiwenoka_write_sheet(
            table.as_ptr(),
            table.len(),
            separation,
            tapes.as_ptr(),
            tapes.len(),
            half_widths.as_ptr(),
            half_widths.len(),
            out.as_mut_ptr(),
            out.len(),
            bytes,
        )
    }
}

/// The bytes of `out` with which `list_sheet` can print any sheet.
pub const TEXT_ROOM: usize = 41_024;

#[inline]
pub fn list_sheet(file: &[u8], out: &mut [u8]) -> usize {
    // SAFETY: as in `mirror`.
    unsafe { raw::hiwenoka_list_sheet(file.as_ptr(), file.len(), out.as_mut_ptr(), out.len()) }
}

#[inline]
pub fn read_newick(text: &[u8], table: &mut [u16], tapes: &mut [u16], nodes: &mut u16) -> u16 {
    // SAFETY: as in `mirror`.
    unsafe {
        raw::hiwenoka_read_newick(
            text.as_ptr(),
            text.len(),
            table.as_mut_ptr(),
            table.len(),
            tapes.as_mut_ptr(),
            tapes.len(),
            nodes,
        )
    }
}

#[inline]
pub fn on_screen(view: View, level: u16, place: i32, on: &mut u8, x: &mut f64, y: &mut f64) -> u16 {
    let View { across, down, zoom } = view;
    // SAFETY: the pointers come from references, valid for the call.
    unsafe { raw::hiwenoka_on_screen(across, down, zoom, level, place, on, x, y) }
}

#[inline]
pub fn small_tree(nodes: u16, place: u16, table: &mut [u16]) -> u16 {
    // SAFETY: as in `check_table`.
    unsafe { raw::hiwenoka_small_tree(nodes, place, table.as_mut_ptr(), table.len()) }
}

#[inline]
pub fn trees_of_dots(
    nodes: u16,
    dots: &[i32],
    separation: u16,
    lowest: &mut u16,
    count: &mut u16,
) -> u16 {
    // SAFETY: as in `mirror`.
    unsafe {
        raw::hiwenoka_trees_of_dots(nodes, dots.as_ptr(), dots.len(), separation, lowest, count)
    }
}
