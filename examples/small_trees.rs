// Lists all families of five tapes, a line for each: its place in the list and its table, where -
// means none. From the repository's root:
//
//     rustc --edition 2021 -D warnings examples/small_trees.rs -C link-arg=crates/exports/out/libexports.a -o small_trees

const NONE: u16 = 65_535;
const N: u16 = 5;
const NO_SUCH_PLACE: u16 = 21;

extern "C" {
    fn hiwenoka_small_tree(nodes: u16, place: u16, table: *mut u16, table_len: usize) -> u16;
}

fn main() {
    let mut table = [0; 2 * N as usize];
    for place in 0.. {
        // SAFETY: the pointer comes from an array of the stated length.
        let number = unsafe { hiwenoka_small_tree(N, place, table.as_mut_ptr(), table.len()) };
        if number != 0 {
            assert_eq!(number, NO_SUCH_PLACE, "refused");
            break;
        }
        print!("{place}:");
        for entry in table {
            match entry {
                NONE => print!(" -"),
                node => print!(" {node}"),
            }
        }
        println!();
    }
}
