//! The model of the listing: what the program must print for an input.

use crate::layout::{layout, LaidOut, Slices};
use crate::sheet::{read, Read};
use crate::table::MOST_NODES;

/// The numbers that a listing can give. The reader sees to it that a table has 2n entries and that
/// n and D are in range, and the slices inside are long enough: 1 and 6 to 8 do not occur.
pub const NUMBERS: [u16; 11] = [0, 2, 3, 4, 5, 9, 10, 11, 12, 14, 17];

/// The bytes for this input.
pub fn listing(file: &[u8]) -> Vec<u8> {
    match lines(file) {
        Ok(lines) => lines.concat(),
        Err(number) => format!("refused {number}\n"),
    }
    .into_bytes()
}

/// The number that a listing gives.
pub fn number_of(listing: &[u8]) -> u16 {
    let text = String::from_utf8_lossy(listing);
    match text.strip_prefix("refused ") {
        Some(number) => number.trim_end().parse().expect("a refusal has a number"),
        None => 0,
    }
}

/// The sheet's line and one for each node, or the number of the refusal.
fn lines(file: &[u8]) -> Result<Vec<String>, u16> {
    let (pairs, singles) = ([0; 2 * MOST_NODES], [0; MOST_NODES]);
    let sheet = read(file, &pairs, &pairs, &singles);
    if sheet.number != 0 {
        return Err(sheet.number);
    }
    let nodes = usize::from(sheet.nodes);
    let lent = Slices {
        places: &[0; MOST_NODES],
        levels: &singles,
        record: &pairs,
        work: &[0; 16 * MOST_NODES],
    };
    let (table, half_widths) = (&sheet.table[..2 * nodes], &sheet.half_widths[..nodes]);
    let laid = layout(table, sheet.separation, half_widths, &lent);
    if laid.number != 0 {
        return Err(laid.number);
    }
    let mut lines = vec![sheet_line(&sheet, &laid)];
    lines.extend((0..nodes).map(|node| node_line(node, &sheet, &laid)));
    Ok(lines)
}

fn sheet_line(sheet: &Read, laid: &LaidOut) -> String {
    format!(
        "sheet {} {} {} {} {}\n",
        laid.nodes, laid.level_count, sheet.separation, laid.least, laid.greatest
    )
}

fn node_line(node: usize, sheet: &Read, laid: &LaidOut) -> String {
    let (low, high) = (sheet.tapes[2 * node], sheet.tapes[2 * node + 1]);
    let tape = u32::from(low) + 65_536 * u32::from(high);
    format!(
        "{node} {} {} {tape}\n",
        laid.levels[node], laid.places[node]
    )
}

#[cfg(test)]
mod tests {
    use super::*;
    use crate::shapes;
    use crate::sheet::{blocks_of, bytes_of, close, example, write, Sheet};
    use crate::table::NONE;

    fn expect(file: &[u8], text: &str) {
        assert_eq!(String::from_utf8_lossy(&listing(file)), text);
    }

    /// A sheet with D = 1, tapes and half-widths 0.
    fn plain(table: &[u16]) -> Sheet {
        Sheet {
            separation: 1,
            table: table.to_vec(),
            tapes: vec![0; table.len()],
            half_widths: vec![0; table.len() / 2],
        }
    }

    #[test]
    fn the_example_of_the_paper() {
        expect(
            &write(&example()),
            "sheet 3 2 3 -1 2\n0 0 0 500\n1 1 -1 501\n2 1 2 502\n",
        );
    }

    #[test]
    fn tape_numbers_of_both_words() {
        let mut sheet = plain(&shapes::chain(4));
        sheet.tapes = vec![65_535, 65_535, 65_535, 0, 0, 1, 1, 32_768];
        expect(
            &write(&sheet),
            "sheet 4 4 1 0 0\n0 0 0 4294967295\n1 1 0 65535\n2 2 0 65536\n3 3 0 2147483649\n",
        );
    }

    #[test]
    fn lines_in_the_order_of_numbers() {
        // Node 2 is the first child, node 1 the second.
        let sheet = plain(&[2, NONE, NONE, NONE, NONE, 1]);
        expect(
            &write(&sheet),
            "sheet 3 2 1 0 1\n0 0 0 0\n1 1 1 0\n2 1 0 0\n",
        );
    }

    #[test]
    fn the_largest_sheets() {
        let chain = listing(&write(&plain(&shapes::chain(1_024))));
        assert!(chain.starts_with(b"sheet 1024 1024 1 0 0\n0 0 0 0\n"));
        assert!(chain.ends_with(b"\n1023 1023 0 0\n"));
        let mut star = plain(&shapes::star(1_024));
        star.separation = 1_024;
        let star = listing(&write(&star));
        assert!(star.starts_with(b"sheet 1024 2 1024 -523264 523264\n0 0 0 0\n1 1 -523264 0\n"));
        assert!(star.ends_with(b"\n1023 1 523264 0\n"));
        let mut wide = plain(&shapes::star(1_024));
        wide.separation = 1_024;
        wide.half_widths = vec![256; 1_024];
        let wide = listing(&write(&wide));
        assert!(wide.starts_with(b"sheet 1024 2 1024 -784896 784896\n0 0 0 0\n1 1 -784896 0\n"));
    }

    #[test]
    fn half_widths_move_places_and_are_not_printed() {
        let mut sheet = example();
        sheet.half_widths = vec![256, 0, 4];
        expect(
            &write(&sheet),
            "sheet 3 2 3 -3 4\n0 0 0 500\n1 1 -3 501\n2 1 4 502\n",
        );
    }

    #[test]
    fn half_widths_are_judged_after_the_tree() {
        let mut sheet = example();
        for (node, width) in [(0, 257), (1, 65_535), (2, 257)] {
            sheet.half_widths = vec![256; 3];
            sheet.half_widths[node] = width;
            expect(&write(&sheet), "refused 17\n");
        }
        for (table, text) in [
            ([1, NONE, NONE, NONE, NONE, NONE], "refused 5\n"),
            ([NONE, NONE, 2, NONE, 1, NONE], "refused 14\n"),
        ] {
            sheet.table = table.to_vec();
            expect(&write(&sheet), text);
        }
    }

    #[test]
    fn refusals_of_the_reader() {
        let file = write(&example());
        expect(&[], "refused 9\n");
        expect(&file[..1_023], "refused 9\n");
        expect(&[0; 11_265], "refused 9\n");
        let mut flipped = file.clone();
        flipped[700] ^= 16;
        expect(&flipped, "refused 10\n");
        let mut blocks = blocks_of(&file);
        blocks.swap(0, 1);
        expect(&bytes_of(&blocks), "refused 11\n");
        blocks.swap(0, 1);
        blocks[0][3] = 1_025;
        close(&mut blocks[0]);
        expect(&bytes_of(&blocks), "refused 12\n");
    }

    #[test]
    fn refusals_of_the_tree_in_a_sound_file() {
        let cases: [(&[u16], &str); 6] = [
            (&[2, NONE, NONE, NONE], "refused 2\n"),
            (&[NONE, 1, NONE, NONE], "refused 3\n"),
            (&[1, NONE, NONE, 1], "refused 4\n"),
            (&[0, NONE], "refused 4\n"),
            (&[NONE; 4], "refused 5\n"),
            (&[NONE, NONE, 2, NONE, 1, NONE], "refused 14\n"),
        ];
        for (table, text) in cases {
            expect(&write(&plain(table)), text);
        }
    }
}
