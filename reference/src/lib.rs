//! The independent reference of the copy sheet library.
//!
//! The models say what each operation must give, written from the paper alone and meant to be
//! obviously right rather than fast. The comparisons in `tests/` hold the library and its listing
//! program against them.

pub mod binary_shapes;
pub mod conflicts;
pub mod ffi;
pub mod files;
pub mod half_widths;
pub mod layout;
pub mod layout_call;
pub mod lent;
pub mod listing;
pub mod newick;
pub mod plain;
pub mod pointer;
pub mod program;
pub mod random;
pub mod run;
pub mod samples;
pub mod screen;
pub mod shapes;
pub mod sheet;
pub mod small_trees;
pub mod table;
pub mod texts;
pub mod trees_of_dots;
pub mod treetex;
