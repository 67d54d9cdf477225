//! The model of a tree as a Newick text: the reader and a printer.
//!
//! Both take the grammar as rules over a pile of pieces. The printer puts the pieces of a subtree
//! in its place until only bytes are left; the reader puts a subtree in the place of its pieces
//! until only that and the semicolon are left. Nodes are numbered when the whole tree is known.

use crate::sheet::words_of;
use crate::table::{children_of, over_start, renumber, table_of, Children, MOST_NODES};

/// The longest text that is taken.
pub const MOST_BYTES: usize = 16_384;

/// A tree with two words of its label for each node, low word first.
#[derive(Clone, Debug, PartialEq, Eq)]
pub struct Tree {
    pub table: Vec<u16>,
    pub tapes: Vec<u16>,
}

/// What a call of the reader must give.
#[derive(Debug, PartialEq, Eq)]
pub struct Read {
    pub number: u16,
    pub nodes: u16,
    pub table: Vec<u16>,
    pub tapes: Vec<u16>,
}

/// `table` and `tapes` are the slices as they are lent.
pub fn read(text: &[u8], table: &[u16], tapes: &[u16]) -> Read {
    let fits = |tree: &Tree| tree.table.len() <= table.len().min(tapes.len());
    match tree_of(text).and_then(|tree| if fits(&tree) { Ok(tree) } else { Err(7) }) {
        Err(number) => Read {
            number,
            nodes: 0,
            table: table.to_vec(),
            tapes: tapes.to_vec(),
        },
        Ok(tree) => Read {
            number: 0,
            nodes: (tree.table.len() / 2) as u16,
            table: over_start(table, &tree.table),
            tapes: over_start(tapes, &tree.tapes),
        },
    }
}

/// The tree of a text, or the first of 15 and 16 that holds.
pub fn tree_of(text: &[u8]) -> Result<Tree, u16> {
    let nodes = Some(text)
        .filter(|text| text.len() <= MOST_BYTES)
        .and_then(pieces_of)
        .and_then(reduced);
    match nodes {
        None => Err(15),
        Some(nodes) if nodes.labels.len() > MOST_NODES => Err(16),
        Some(nodes) => Ok(nodes.numbered()),
    }
}

/// The text of a tree of any size, numbered in any way.
pub fn text_of(tree: &Tree) -> Vec<u8> {
    let children = children_of(&tree.table);
    let mut text = Vec::new();
    // The next piece is the last.
    let mut pile = vec![Piece::End, Piece::Subtree(0)];
    while let Some(piece) = pile.pop() {
        match piece {
            Piece::Open => text.push(b'('),
            Piece::Comma => text.push(b','),
            Piece::Close => text.push(b')'),
            Piece::End => text.push(b';'),
            Piece::Label(label) => text.extend(label.to_string().bytes()),
            Piece::Subtree(node) => {
                let (low, high) = (tree.tapes[2 * node], tree.tapes[2 * node + 1]);
                pile.push(Piece::Label(u32::from(low) + 65_536 * u32::from(high)));
                if let Some((&first, others)) = children[node].split_first() {
                    pile.push(Piece::Close);
                    for &child in others.iter().rev() {
                        pile.extend([Piece::Subtree(child), Piece::Comma]);
                    }
                    pile.extend([Piece::Subtree(first), Piece::Open]);
                }
            }
        }
    }
    text
}

#[derive(PartialEq)]
enum Piece {
    Open,
    Comma,
    Close,
    End,
    Label(u32),
    Subtree(usize),
}

/// Digits that stand together are one piece, and so is each other byte.
fn pieces_of(text: &[u8]) -> Option<Vec<Piece>> {
    text.chunk_by(|left, right| left.is_ascii_digit() && right.is_ascii_digit())
        .map(|bytes| match bytes {
            b"(" => Some(Piece::Open),
            b"," => Some(Piece::Comma),
            b")" => Some(Piece::Close),
            b";" => Some(Piece::End),
            _ => label_of(bytes).map(Piece::Label),
        })
        .collect()
}

/// The number that prints as these bytes.
fn label_of(bytes: &[u8]) -> Option<u32> {
    let label: u32 = str::from_utf8(bytes).ok()?.parse().ok()?;
    (label.to_string().as_bytes() == bytes).then_some(label)
}

/// The nodes of a text, each after its children.
struct Nodes {
    labels: Vec<u32>,
    children: Children,
}

impl Nodes {
    fn numbered(self) -> Tree {
        // The root comes first if the order is turned round.
        let last = self.labels.len() - 1;
        let turned: Children = self
            .children
            .iter()
            .rev()
            .map(|family| family.iter().map(|&child| last - child).collect())
            .collect();
        let table = table_of(&turned);
        let renumbered = renumber(&table, &table, &vec![0; turned.len()]);
        let labels = renumbered
            .map
            .iter()
            .map(|&node| self.labels[last - usize::from(node)]);
        Tree {
            table: renumbered.out,
            tapes: words_of(labels),
        }
    }
}

/// The nodes of pieces that come down to one subtree and the semicolon.
fn reduced(pieces: Vec<Piece>) -> Option<Nodes> {
    let (mut labels, mut children) = (Vec::new(), Vec::new());
    let mut pile = Vec::new();
    for piece in pieces {
        let Piece::Label(label) = piece else {
            pile.push(piece);
            continue;
        };
        let family = match pile.last() {
            Some(Piece::Close) => bracketed(&mut pile)?,
            _ => vec![],
        };
        pile.push(Piece::Subtree(labels.len()));
        labels.push(label);
        children.push(family);
    }
    matches!(pile[..], [Piece::Subtree(_), Piece::End]).then_some(Nodes { labels, children })
}

/// Takes a pair of brackets off the pile, and gives the subtrees that stood between them.
fn bracketed(pile: &mut Vec<Piece>) -> Option<Vec<usize>> {
    let mut family = Vec::new();
    // First the closing bracket, then the comma after each subtree but the last.
    while pile.pop()? != Piece::Open {
        let Some(Piece::Subtree(child)) = pile.pop() else {
            return None;
        };
        family.push(child);
        if !matches!(pile.last(), Some(Piece::Open | Piece::Comma)) {
            return None;
        }
    }
    family.reverse();
    Some(family)
}

#[cfg(test)]
mod tests {
    use super::*;
    use crate::shapes;
    use crate::table::NONE;

    fn number_of(text: &str) -> u16 {
        tree_of(text.as_bytes()).err().unwrap_or(0)
    }

    #[test]
    fn a_family_read_and_printed() {
        let text = b"(11,(21,22)12,4294967295)10;";
        let tree = tree_of(text).expect("it is a tree");
        assert_eq!(
            tree.table,
            [1, NONE, NONE, 2, 3, 5, NONE, 4, NONE, NONE, NONE, NONE]
        );
        let labels = [10, 11, 12, 21, 22, 4_294_967_295];
        assert_eq!(tree.tapes, words_of(labels));
        assert_eq!(text_of(&tree), text);
    }

    #[test]
    fn texts_that_are_taken() {
        for text in ["0;", "4294967295;", "(1)2;", "((0)0)0;", "(0,0,(0)0)0;"] {
            assert_eq!(number_of(text), 0, "{text}");
        }
    }

    #[test]
    fn texts_that_are_no_tree() {
        let texts =
            "|;|0|0;;|0;0|0;\n| 0;|0 ;|00;|01;|+0;|-0;|a;|4294967296;|18446744073709551616;|\
            ();|()1;|(1)|(1);|(1)2|(1))2;|((1)2;|(,1)2;|(1,)2;|(1,,1)2;|1,2;|(1)2,3;|(1)2(3)4;|\
            1(2)3;|(1(2)3)4;|(1)(2)3;|(1;2)3;|(1)2;(1)2;|1)2;|,1;|(;)1;|(1:2)3;";
        for text in texts.split('|') {
            assert_eq!(number_of(text), 15, "{text}");
        }
    }

    #[test]
    fn the_bounds_of_nodes_bytes_and_slices() {
        let text_of_chain = |nodes: usize| {
            let table = shapes::chain(nodes);
            let tapes = vec![0; table.len()];
            text_of(&Tree { table, tapes })
        };
        let longest = text_of_chain(5_461);
        assert_eq!(longest.len(), MOST_BYTES - 2);
        assert_eq!(tree_of(&longest), Err(16));
        assert_eq!(tree_of(&text_of_chain(5_462)), Err(15));
        assert_eq!(tree_of(&text_of_chain(1_025)), Err(16));
        let chain = text_of_chain(1_024);
        let lens = [(2_048, 2_048, 0), (2_047, 2_048, 7), (2_048, 2_047, 7)];
        for (table_len, tapes_len, number) in lens {
            let read = read(&chain, &vec![7; table_len], &vec![8; tapes_len]);
            assert_eq!(read.number, number);
        }
        let read = read(b"(1)70000;", &[7; 5], &[8; 6]);
        assert_eq!((read.number, read.nodes), (0, 2));
        assert_eq!(read.table, [1, NONE, NONE, NONE, 7]);
        assert_eq!(read.tapes, [4_464, 1, 1, 0, 8, 8]);
    }
}
