// Finds the families of seven tapes whose drawing has just these dots: how many there are, and of
// the first its place in the list and its table, where - means none. Then the same with a dot moved.
// From the repository's root:
//
//     rustc --edition 2021 -D warnings examples/trees_of_dots.rs -C link-arg=crates/exports/out/libexports.a -o trees_of_dots

const NONE: u16 = 65_535;
const N: u16 = 7;
const D: u16 = 2;
const LEN: usize = 2 * N as usize;

extern "C" {
    fn hiwenoka_small_tree(nodes: u16, place: u16, table: *mut u16, table_len: usize) -> u16;
    fn hiwenoka_trees_of_dots(
        nodes: u16, dots: *const i32, dots_len: usize, separation: u16,
        lowest: &mut u16, count: &mut u16,
    ) -> u16;
}

fn print_first(dots: &[i32; LEN]) {
    let (mut lowest, mut count) = (0, 0);
    // SAFETY: the pointer comes from an array of the stated length, and nothing overlaps.
    let number =
        unsafe { hiwenoka_trees_of_dots(N, dots.as_ptr(), LEN, D, &mut lowest, &mut count) };
    assert_eq!(number, 0, "refused");
    println!("{count} fit");
    // Without a tree that fits, there is no place either.
    if count == 0 {
        return;
    }
    let mut table = [0; LEN];
    // SAFETY: the pointer comes from an array of the stated length.
    let number = unsafe { hiwenoka_small_tree(N, lowest, table.as_mut_ptr(), LEN) };
    assert_eq!(number, 0, "refused");
    print!("{lowest}:");
    for entry in table {
        match entry {
            NONE => print!(" -"),
            node => print!(" {node}"),
        }
    }
    println!();
}

fn main() {
    // Level and place of each dot. The three copies on level 1 have three on level 2: one each, or
    // the middle one has them all.
    let mut dots = [0, 0, 1, -2, 1, 0, 1, 2, 2, -2, 2, 0, 2, 2];
    print_first(&dots);
    dots[13] = 3;
    print_first(&dots);
}
