//! The model of the layout: the six steps of "Where a node stands", taken literally.
//!
//! A drawing is a list of levels, each a list of nodes with their places in tree order. So the
//! left contour is the first of each level and the right contour the last.

use crate::half_widths;
use crate::table::{children_of, over_start, parents_first, refusal, Children};
use crate::treetex::{Profile, MOST_EXTRA};

/// The drawing of a subtree; its root alone is on the first level.
type Drawing = Vec<Vec<(usize, i64)>>;

/// What sets nodes apart.
#[derive(Clone, Copy)]
struct Spacing<'a> {
    /// The distance that two neighbours need, by their numbers.
    needed: &'a dyn Fn(usize, usize) -> i64,
    /// What is added at a significant node; nothing in the plain layout.
    extra: i64,
}

/// D plus both half-widths.
fn needed(separation: u16, half_widths: &[u16]) -> impl Fn(usize, usize) -> i64 + '_ {
    let width = |node: usize| i64::from(half_widths[node]);
    move |left, right| i64::from(separation) + width(left) + width(right)
}

/// A conflict of step 4, by the paper's names: child j, the new one, comes too close to child i.
#[derive(Clone, Copy, Debug, PartialEq, Eq)]
pub struct Conflict {
    /// The node whose children they are.
    pub parent: usize,
    pub i: usize,
    pub j: usize,
    pub s: i64,
    /// Whether child i alone of those already joined has the level on which they meet.
    pub alone: bool,
}

impl Conflict {
    /// The count of gaps from child i to child j.
    pub fn k(&self) -> i64 {
        (self.j - self.i) as i64
    }

    /// By how much each gap grows at least.
    pub fn q(&self) -> i64 {
        self.s / self.k()
    }

    /// How many gaps, the rightmost, grow by one unit more.
    pub fn r(&self) -> i64 {
        self.s - self.k() * self.q()
    }
}

/// What the walks of step 3 met.
#[derive(Default)]
struct Walked {
    /// The pairs that were measured, left node first.
    measured: Vec<(usize, usize)>,
    conflicts: Vec<Conflict>,
}

/// A finished drawing with the root at 0, and what the walks met.
struct Drawn {
    levels: Drawing,
    walked: Walked,
}

/// Steps 1 to 6 for the tree with these children.
fn draw(children: &Children, spacing: Spacing) -> Drawn {
    let mut walked = Walked::default();
    let mut drawings: Vec<Option<Drawing>> = vec![None; children.len()];
    // Step 1: each subtree on its own, so children before their parents.
    for node in parents_first(children).into_iter().rev() {
        let subtrees: Vec<Drawing> = children[node]
            .iter()
            .map(|&child| drawings[child].take().expect("drawn before its parent"))
            .collect();
        drawings[node] = Some(draw_family(node, subtrees, spacing, &mut walked));
    }
    Drawn {
        levels: drawings[0].take().expect("the root is drawn last"),
        walked,
    }
}

/// The drawing of a node over the drawings of its children, each with its root at 0; again with
/// the node at 0, which is step 6 for the whole and free for a part that moves as one piece.
fn draw_family(
    node: usize,
    subtrees: Vec<Drawing>,
    spacing: Spacing,
    walked: &mut Walked,
) -> Drawing {
    if subtrees.is_empty() {
        return vec![vec![(node, 0)]];
    }
    let mut joined: Vec<Drawing> = Vec::new();
    for subtree in subtrees {
        join(node, &mut joined, subtree, spacing, walked);
    }
    // Step 5.
    let (first, last) = (
        root_place(&joined[0]),
        root_place(&joined[joined.len() - 1]),
    );
    let place = first + (last - first) / 2;
    // Below the node the levels of its children, side by side.
    let mut drawing = vec![vec![(node, place)]];
    for (level, row) in joined.into_iter().flat_map(|child| (1..).zip(child)) {
        match drawing.get_mut(level) {
            Some(beside) => beside.extend(row),
            None => drawing.push(row),
        }
    }
    move_right(&mut drawing, -place);
    drawing
}

/// Steps 2 to 4 for child j, the number of children already joined. A conflict below the children's
/// own level makes their parent significant: then child j moves once more, after the walk.
fn join(
    parent: usize,
    joined: &mut Vec<Drawing>,
    mut subtree: Drawing,
    Spacing { needed, extra }: Spacing,
    walked: &mut Walked,
) {
    let j = joined.len();
    let mut significant = false;
    if j > 0 {
        let elder = &joined[j - 1];
        let distance = needed(root(elder), root(&subtree));
        move_right(&mut subtree, root_place(elder) + distance);
    }
    for level in 0.. {
        // The right contour's node belongs to the last child that has the level.
        let has_level = |child: &Drawing| level < child.len();
        let Some(i) = joined.iter().rposition(has_level) else {
            break;
        };
        if level >= subtree.len() {
            break;
        }
        let (left, left_place) = joined[i][level][joined[i][level].len() - 1];
        let (right, right_place) = subtree[level][0];
        walked.measured.push((left, right));
        let s = needed(left, right) - (right_place - left_place);
        if s > 0 {
            let conflict = Conflict {
                parent,
                i,
                j,
                s,
                alone: !joined[..i].iter().any(has_level),
            };
            move_apart(joined, &mut subtree, &conflict);
            walked.conflicts.push(conflict);
            significant |= level > 0;
        }
    }
    if significant {
        move_right(&mut subtree, extra);
    }
    joined.push(subtree);
}

/// Step 4 at a conflict: child j moves right by s, and each child i + t between them by its share.
fn move_apart(joined: &mut [Drawing], subtree: &mut Drawing, conflict: &Conflict) {
    let (k, q, r) = (conflict.k(), conflict.q(), conflict.r());
    move_right(subtree, conflict.s);
    for t in 1..k {
        let odd_units = (t - (k - r)).max(0);
        move_right(&mut joined[conflict.i + t as usize], t * q + odd_units);
    }
}

fn root(drawing: &Drawing) -> usize {
    drawing[0][0].0
}

fn root_place(drawing: &Drawing) -> i64 {
    drawing[0][0].1
}

fn move_right(drawing: &mut Drawing, distance: i64) {
    for (_, place) in drawing.iter_mut().flatten() {
        *place += distance;
    }
}

/// What a layout is given to read.
#[derive(Clone, Copy)]
pub struct Given<'a> {
    pub table: &'a [u16],
    pub separation: u16,
    pub half_widths: &'a [u16],
    pub profile: Profile,
}

impl<'a> Given<'a> {
    /// For the plain layout.
    pub fn plain(table: &'a [u16], separation: u16, half_widths: &'a [u16]) -> Self {
        Given {
            table,
            separation,
            half_widths,
            profile: Profile::Plain,
        }
    }

    fn nodes(&self) -> usize {
        self.table.len() / 2
    }

    /// The drawing of what is accepted.
    fn drawn(&self) -> Drawn {
        let spacing = Spacing {
            needed: &needed(self.separation, self.half_widths),
            extra: i64::from(self.profile.extra()),
        };
        draw(&children_of(self.table), spacing)
    }
}

/// The slices that a layout writes, as they are lent.
pub struct Slices<'a> {
    pub places: &'a [i32],
    pub levels: &'a [u16],
    pub record: &'a [u16],
    pub work: &'a [i32],
}

/// What a call of the layout must give.
#[derive(Debug, PartialEq, Eq)]
pub struct LaidOut {
    pub number: u16,
    pub nodes: u16,
    pub level_count: u16,
    pub least: i32,
    pub greatest: i32,
    pub pairs: u16,
    pub places: Vec<i32>,
    pub levels: Vec<u16>,
    pub record: Vec<u16>,
    pub work: Vec<i32>,
}

/// The pairs of neighbours in reading order: level by level from the top, left to right on each.
fn in_reading_order(levels: &Drawing) -> Vec<(usize, usize)> {
    levels
        .iter()
        .flat_map(|row| row.windows(2).map(|pair| (pair[0].0, pair[1].0)))
        .collect()
}

/// The conflicts of a well-formed table with this separation and these half-widths, in the order in
/// which they are met.
pub fn conflicts(table: &[u16], separation: u16, half_widths: &[u16]) -> Vec<Conflict> {
    let given = Given::plain(table, separation, half_widths);
    given.drawn().walked.conflicts
}

/// The places of a well-formed table's nodes by the steps without widths: neighbours need D.
pub fn places_without_widths(table: &[u16], separation: u16) -> Vec<i32> {
    let spacing = Spacing {
        needed: &|_, _| i64::from(separation),
        extra: 0,
    };
    let drawn = draw(&children_of(table), spacing);
    let (places, _) = by_number(&drawn.levels, table.len() / 2);
    places
}

/// The places and the levels of so many nodes.
fn by_number(drawing: &Drawing, nodes: usize) -> (Vec<i32>, Vec<u16>) {
    let mut places = vec![0; nodes];
    let mut levels = vec![0; nodes];
    for (level, row) in drawing.iter().enumerate() {
        for &(node, place) in row {
            places[node] = i32::try_from(place).expect("places fit 32 bits");
            levels[node] = level as u16;
        }
    }
    (places, levels)
}

/// The whole operation, plain.
pub fn layout(table: &[u16], separation: u16, half_widths: &[u16], lent: &Slices) -> LaidOut {
    layout_under(&Given::plain(table, separation, half_widths), lent)
}

/// The whole operation under any profile.
pub fn layout_under(given: &Given, lent: &Slices) -> LaidOut {
    match layout_refusal(given, lent) {
        0 => accepted(given, lent),
        number => LaidOut {
            number,
            nodes: 0,
            level_count: 0,
            least: 0,
            greatest: 0,
            pairs: 0,
            places: lent.places.to_vec(),
            levels: lent.levels.to_vec(),
            record: lent.record.to_vec(),
            work: lent.work.to_vec(),
        },
    }
}

/// The first of the conditions 1 to 5, 14, 23, 6, 17, 24, 7 and 8 that holds, or 0. In the plain
/// layout neither 23 nor 24 can hold.
fn layout_refusal(given: &Given, lent: &Slices) -> u16 {
    let nodes = given.nodes();
    if refusal(given.table) != 0 {
        refusal(given.table)
    } else if !given.profile.admits(&children_of(given.table)) {
        23
    } else if !(1..=1_024).contains(&given.separation) {
        6
    } else if half_widths::refused(given.half_widths, nodes) {
        17
    } else if given.profile.extra() > MOST_EXTRA {
        24
    } else if lent.places.len() < nodes
        || lent.levels.len() < nodes
        || lent.record.len() < 2 * nodes
    {
        7
    } else if lent.work.len() < 16 * nodes {
        8
    } else {
        0
    }
}

fn accepted(given: &Given, lent: &Slices) -> LaidOut {
    let nodes = given.nodes();
    let drawn = given.drawn();
    let (places, levels) = by_number(&drawn.levels, nodes);
    let pairs = in_reading_order(&drawn.levels);
    let record: Vec<u16> = pairs
        .iter()
        .flat_map(|&(left, right)| [left as u16, right as u16])
        .collect();
    let (mut measured, mut recorded) = (drawn.walked.measured, pairs);
    measured.sort_unstable();
    recorded.sort_unstable();
    assert_eq!(measured, recorded, "the record names what step 3 measures");
    LaidOut {
        number: 0,
        nodes: nodes as u16,
        level_count: drawn.levels.len() as u16,
        least: places.iter().copied().min().unwrap_or(0),
        greatest: places.iter().copied().max().unwrap_or(0),
        pairs: measured.len() as u16,
        places: over_start(lent.places, &places),
        levels: over_start(lent.levels, &levels),
        record: over_start(lent.record, &record),
        work: over_start(lent.work, &vec![0; 16 * nodes]),
    }
}

#[cfg(test)]
pub(crate) mod tests {
    use super::*;
    use crate::random::Random;
    use crate::shapes;
    use crate::table::level_by_level;
    use std::collections::BTreeSet;

    /// A layout with slices of just the lengths that are needed.
    pub(crate) fn lay_out_under(given: &Given) -> LaidOut {
        let nodes = given.nodes();
        let slices = Slices {
            places: &vec![-9; nodes],
            levels: &vec![9; nodes],
            record: &vec![9; 2 * nodes],
            work: &vec![9; 16 * nodes],
        };
        layout_under(given, &slices)
    }

    /// The plain one.
    fn lay_out_wide(table: &[u16], separation: u16, half_widths: &[u16]) -> LaidOut {
        lay_out_under(&Given::plain(table, separation, half_widths))
    }

    /// The same with half-widths 0.
    fn lay_out(table: &[u16], separation: u16) -> LaidOut {
        lay_out_wide(table, separation, &vec![0; table.len() / 2])
    }

    /// Holds a layout against places and levels worked out by hand. A node is given by its level
    /// and its place, in Renumber's order.
    fn expect(separation: u16, dots: &[(usize, i32)]) {
        let dots: Vec<_> = dots
            .iter()
            .map(|&(level, place)| (level, 0, place))
            .collect();
        expect_wide(separation, &dots);
    }

    /// The same with the half-width of each node between level and place.
    fn expect_wide(separation: u16, dots: &[(usize, u16, i32)]) {
        expect_under(Profile::Plain, separation, dots);
    }

    /// The same under any profile.
    pub(crate) fn expect_under(profile: Profile, separation: u16, dots: &[(usize, u16, i32)]) {
        let list: Vec<usize> = dots.iter().map(|dot| dot.0).collect();
        let half_widths: Vec<u16> = dots.iter().map(|dot| dot.1).collect();
        let table = shapes::table_of_levels(&list);
        let laid = lay_out_under(&Given {
            profile,
            ..Given::plain(&table, separation, &half_widths)
        });
        let places: Vec<i32> = dots.iter().map(|dot| dot.2).collect();
        assert_eq!(laid.number, 0);
        assert_eq!(usize::from(laid.nodes), dots.len());
        assert_eq!(laid.places, places);
        assert!(laid
            .levels
            .iter()
            .map(|&level| usize::from(level))
            .eq(list.clone()));
        let level_count = 1 + list.iter().max().expect("there is a root");
        assert_eq!(usize::from(laid.level_count), level_count);
        assert_eq!(laid.least, *places.iter().min().expect("there is a root"));
        assert_eq!(
            laid.greatest,
            *places.iter().max().expect("there is a root")
        );
        assert_eq!(usize::from(laid.pairs), dots.len() - level_count);
        assert_eq!(pairs_of(&laid), neighbours(&table));
        assert!(laid.work.iter().all(|&entry| entry == 0));
    }

    /// The pairs of the record, in its order.
    fn pairs_of(laid: &LaidOut) -> Vec<(u16, u16)> {
        laid.record[..2 * usize::from(laid.pairs)]
            .chunks_exact(2)
            .map(|pair| (pair[0], pair[1]))
            .collect()
    }

    /// The neighbours by the links alone, level by level from the top.
    fn neighbours(table: &[u16]) -> Vec<(u16, u16)> {
        let mut pairs = Vec::new();
        for level in level_by_level(&children_of(table)) {
            for pair in level.windows(2) {
                pairs.push((pair[0] as u16, pair[1] as u16));
            }
        }
        pairs
    }

    #[test]
    fn p1_one_node() {
        expect(5, &[(0, 0)]);
    }

    #[test]
    fn p2_a_chain_of_three() {
        expect(5, &[(0, 0), (1, 0), (2, 0)]);
    }

    #[test]
    fn p3_to_p5_leaves() {
        expect(10, &[(0, 0), (1, -5), (1, 5)]);
        expect(3, &[(0, 0), (1, -1), (1, 2)]);
        expect(1, &[(0, 0), (1, -1), (1, 0), (1, 1)]);
    }

    #[test]
    fn p6_two_go_betweens() {
        // E starts at 12, its first leaf at 4; A's last stands at 8: s = 8, k = 3, so q = 2 and
        // r = 2. b moves by 2, c by 4 and 1 more, E by 8: A, b, c, E stand at 0, 6, 13, 20.
        expect(
            4,
            &[
                (0, 0),
                (1, -10),
                (2, -18),
                (2, -14),
                (2, -10),
                (2, -6),
                (2, -2),
                (1, -4),
                (1, 3),
                (1, 10),
                (2, 2),
                (2, 6),
                (2, 10),
                (2, 14),
                (2, 18),
            ],
        );
        let list = [0, 1, 2, 2, 2, 2, 2, 1, 1, 1, 2, 2, 2, 2, 2];
        assert_eq!(
            pairs_of(&lay_out(&shapes::table_of_levels(&list), 4)),
            [
                (1, 7),
                (7, 8),
                (8, 9),
                (2, 3),
                (3, 4),
                (4, 5),
                (5, 6),
                (6, 10),
                (10, 11),
                (11, 12),
                (12, 13),
                (13, 14),
            ]
        );
    }

    #[test]
    fn p7_a_conflict_with_the_elder_and_one_with_the_eldest() {
        // B meets A one level down: s = 2. C meets B one level down, s = 4, and then A two levels
        // down, s = 2, of which B takes 1. Before the last step A, B, C stand at 0, 5, 12.
        expect(
            2,
            &[
                (0, 0),
                (1, -6),
                (2, -6),
                (3, -12),
                (3, -10),
                (3, -8),
                (3, -6),
                (3, -4),
                (3, -2),
                (3, 0),
                (1, -1),
                (2, -3),
                (2, -1),
                (2, 1),
                (1, 6),
                (2, 4),
                (2, 6),
                (3, 2),
                (3, 4),
                (3, 6),
                (3, 8),
                (3, 10),
                (2, 8),
            ],
        );
    }

    #[test]
    fn the_conflicts_of_p7() {
        let list = [
            0, 1, 2, 3, 3, 3, 3, 3, 3, 3, 1, 2, 2, 2, 1, 2, 2, 3, 3, 3, 3, 3, 2,
        ];
        let conflict = |i, j, s, alone| Conflict {
            parent: 0,
            i,
            j,
            s,
            alone,
        };
        assert_eq!(
            conflicts(&shapes::table_of_levels(&list), 2, &[0; 23]),
            [
                conflict(0, 1, 2, true),
                conflict(1, 2, 4, false),
                conflict(0, 2, 2, true),
            ]
        );
    }

    #[test]
    fn two_pairs_of_leaves() {
        // D = 4. Each child stands between its leaves at -2 and 2. The second child starts at 4;
        // its first leaf then stands at 2, as does the first child's last leaf: s = 4. The
        // children stand at 0 and 8, the root at 4.
        expect(
            4,
            &[(0, 0), (1, -4), (2, -6), (2, -2), (1, 4), (2, 2), (2, 6)],
        );
    }

    #[test]
    fn a_deeper_subtree_beside_a_shallower_forest() {
        // D = 2, children A (a leaf), B (one child with leaves at -2, 0, 2 under it), C (two
        // single children, then such leaves). B starts at 2 and C at 4, both without a conflict
        // with their elder. Two levels down B's last leaf stands at 4 and so does C's chain:
        // s = 2, C at 6. A, B, C stand at 0, 2, 6, the root at 3.
        expect(
            2,
            &[
                (0, 0),
                (1, -3),
                (1, -1),
                (2, -1),
                (3, -3),
                (3, -1),
                (3, 1),
                (1, 3),
                (2, 3),
                (3, 3),
                (4, 1),
                (4, 3),
                (4, 5),
            ],
        );
    }

    #[test]
    fn two_conflicts_each_with_a_go_between() {
        // D = 2, children A, b, C, d, E with 3, 0, 3, 0 and 7 leaves. C starts at 4 and its first
        // leaf stands at 2, as does A's last: s = 2, k = 2, so b moves by 1 and C by 2, to 3 and
        // 6. E starts at 10, its first leaf at 4; C's last stands at 8: s = 6, k = 2, so d moves
        // from 8 to 11 and E to 16. The root stands at 8.
        expect(
            2,
            &[
                (0, 0),
                (1, -8),
                (2, -10),
                (2, -8),
                (2, -6),
                (1, -5),
                (1, -2),
                (2, -4),
                (2, -2),
                (2, 0),
                (1, 3),
                (1, 8),
                (2, 2),
                (2, 4),
                (2, 6),
                (2, 8),
                (2, 10),
                (2, 12),
                (2, 14),
            ],
        );
    }

    #[test]
    fn one_child_with_two_conflicts_shared() {
        // D = 2, children A (one child with nine leaves), b, C (three leaves), d, and E (three
        // children, five leaves under the middle one). A, b, C, d stand at 0, 2, 4, 6 without a
        // conflict. E starts at 8. One level down C's last leaf stands at 6 and so does E's first
        // child: s = 2, k = 2, so d moves to 7 and E to 10. Two levels down A's last leaf stands
        // at 8 and E's first at 6: s = 4, k = 4, so b, C, d move by 1, 2, 3 to 3, 6, 10 and E to
        // 14. The root stands at 7.
        expect(
            2,
            &[
                (0, 0),
                (1, -7),
                (2, -7),
                (3, -15),
                (3, -13),
                (3, -11),
                (3, -9),
                (3, -7),
                (3, -5),
                (3, -3),
                (3, -1),
                (3, 1),
                (1, -4),
                (1, -1),
                (2, -3),
                (2, -1),
                (2, 1),
                (1, 3),
                (1, 7),
                (2, 5),
                (2, 7),
                (3, 3),
                (3, 5),
                (3, 7),
                (3, 9),
                (3, 11),
                (2, 9),
            ],
        );
    }

    #[test]
    fn odd_units_alone() {
        // D = 3, children A, b, c, d, E; A and E have five leaves each. E starts at 12 and its
        // first leaf stands at 6, as does A's last: s = 3, k = 4, so q = 0 and r = 3. b stays, c
        // and d move by 1 and 2, E by 3. The five stand at 0, 3, 7, 11, 15, the root at 7.
        expect(
            3,
            &[
                (0, 0),
                (1, -7),
                (2, -13),
                (2, -10),
                (2, -7),
                (2, -4),
                (2, -1),
                (1, -4),
                (1, 0),
                (1, 4),
                (1, 8),
                (2, 2),
                (2, 5),
                (2, 8),
                (2, 11),
                (2, 14),
            ],
        );
    }

    #[test]
    fn odd_units_beside_an_elder_child() {
        // D = 5, children z, A, b, c, E with 0, 3, 0, 0 and 5 leaves. They start at 0, 5, 10, 15,
        // 20. E's first leaf stands at 10, as does A's last: s = 5, k = 3, so q = 1 and r = 2. b
        // moves by 1, c by 2 and 1 more, E by 5. The five stand at 0, 5, 11, 18, 25, the root at
        // 12.
        expect(
            5,
            &[
                (0, 0),
                (1, -12),
                (1, -7),
                (2, -12),
                (2, -7),
                (2, -2),
                (1, -1),
                (1, 6),
                (1, 13),
                (2, 3),
                (2, 8),
                (2, 13),
                (2, 18),
                (2, 23),
            ],
        );
    }

    #[test]
    fn one_child_with_odd_units_of_two_conflicts() {
        // D = 2, children A (one child with fifteen leaves), b, C (three leaves), d, e, and F
        // (five children, five leaves under the middle one). A to e stand at 0, 2, 4, 6, 8 without
        // a conflict. F starts at 10. One level down C's last leaf stands at 6 and so does F's
        // first child: s = 2, k = 3, so q = 0 and r = 2; d stays, e moves to 9 and F to 12. Two
        // levels down A's last leaf stands at 14 and F's first at 8: s = 8, k = 5, so q = 1 and
        // r = 3; b, C, d, e move by 1, 2, 3 + 1, 4 + 2 to 3, 6, 10, 15 and F to 20. The root
        // stands at 10.
        expect(
            2,
            &[
                (0, 0),
                (1, -10),
                (2, -10),
                (3, -24),
                (3, -22),
                (3, -20),
                (3, -18),
                (3, -16),
                (3, -14),
                (3, -12),
                (3, -10),
                (3, -8),
                (3, -6),
                (3, -4),
                (3, -2),
                (3, 0),
                (3, 2),
                (3, 4),
                (1, -7),
                (1, -4),
                (2, -6),
                (2, -4),
                (2, -2),
                (1, 0),
                (1, 5),
                (1, 10),
                (2, 6),
                (2, 8),
                (2, 10),
                (3, 6),
                (3, 8),
                (3, 10),
                (3, 12),
                (3, 14),
                (2, 12),
                (2, 14),
            ],
        );
    }

    #[test]
    fn half_widths_of_leaves() {
        // D = 10: the leaves need 10 + 3 + 4, and half of 17 is rounded down. D = 1: they need 1 +
        // 2 + 5 and 1 + 5 + 0; half of 14 is 7.
        expect_wide(10, &[(0, 256, 0), (1, 3, -8), (1, 4, 9)]);
        expect_wide(1, &[(0, 0, 0), (1, 2, -7), (1, 5, 1), (1, 0, 7)]);
        // Without a neighbour a half-width counts nowhere.
        expect_wide(5, &[(0, 256, 0), (1, 256, 0), (2, 256, 0)]);
    }

    #[test]
    fn p6_with_half_widths() {
        // D = 4. A's leaves need 4, 4, 4 and 4 + 5: they stand at 0, 4, 8, 12, 21 and A at 10. E's
        // need 4 + 3, 4, 4, 4: 0, 7, 11, 15, 19 and E at 9. A, b, c, E start at 0, 0 + 4 + 2 + 1,
        // 7 + 4 + 1 + 0 and 12 + 4 + 0 + 6, which is 22. E's first leaf then stands at 13 and A's
        // last at 11; they need 4 + 5 + 3: s = 10, k = 3, so q = 3 and r = 1. b moves by 3, c by 6
        // and E by 10. The four stand at 0, 10, 18, 32, the root at 16.
        expect_wide(
            4,
            &[
                (0, 200, 0),
                (1, 2, -16),
                (2, 0, -26),
                (2, 0, -22),
                (2, 0, -18),
                (2, 0, -14),
                (2, 5, -5),
                (1, 1, -6),
                (1, 0, 2),
                (1, 6, 16),
                (2, 3, 7),
                (2, 0, 14),
                (2, 0, 18),
                (2, 0, 22),
                (2, 0, 26),
            ],
        );
    }

    #[test]
    fn wide_nodes_that_meet_below_their_ancestors() {
        // D = 2, children A (a chain of two), b (a leaf) and C (a chain of two). They stand at 0,
        // 2, 4. One level down A's child and C's, of half-widths 9 and 4, need 15 and stand 4
        // apart: s = 11, k = 2, so q = 5 and r = 1. b moves by 5 and C by 11, to 7 and 15; half of
        // 15 is 7.
        expect_wide(
            2,
            &[
                (0, 0, 0),
                (1, 0, -7),
                (2, 9, -7),
                (1, 0, 0),
                (1, 0, 8),
                (2, 4, 8),
            ],
        );
    }

    #[test]
    fn the_widest_star() {
        // 1,023 leaves of half-width 256 with D = 1,024: each needs 1,536 from the next.
        let laid = lay_out_wide(&shapes::star(1_024), 1_024, &[256; 1_024]);
        assert_eq!((laid.least, laid.greatest), (-784_896, 784_896));
    }

    #[test]
    fn refusals_of_the_paper() {
        let none = crate::table::NONE;
        assert_eq!(lay_out(&[], 5).number, 1);
        assert_eq!(lay_out(&[none, 1, none, none], 5).number, 3);
        assert_eq!(lay_out(&[0, none], 5).number, 4);
        assert_eq!(lay_out(&[none; 4], 5).number, 5);
        assert_eq!(lay_out(&[none; 2], 0).number, 6);
        assert_eq!(lay_out(&[none; 2], 1).number, 0);
        assert_eq!(lay_out(&[none; 2], 1_024).number, 0);
        assert_eq!(lay_out(&[none; 2], 1_025).number, 6);
        assert_eq!(lay_out(&shapes::chain(1_024), 5).number, 0);
        assert_eq!(lay_out(&shapes::chain(1_025), 5).number, 1);
        assert_eq!(lay_out(&[none, none, 2, none, 1, none], 5).number, 14);
        assert_eq!(lay_out(&[none, none, 2, none, 1, none], 0).number, 14);
    }

    #[test]
    fn short_slices_and_entries_past_those_named() {
        let table = shapes::star(3);
        let with_widths =
            |separation, half_widths: &[u16], [places, levels, record, work]: [_; 4]| {
                let slices = Slices {
                    places: &vec![-9; places],
                    levels: &vec![9; levels],
                    record: &vec![8; record],
                    work: &vec![7; work],
                };
                layout(&table, separation, half_widths, &slices)
            };
        let with = |separation, places: usize, levels: usize, record: usize, work: usize| {
            with_widths(separation, &[0; 3], [places, levels, record, work])
        };
        for refused in [
            &[0, 0][..],
            &[],
            &[257, 0, 0],
            &[0, 0, 257],
            &[256, 65_535, 0],
        ] {
            assert_eq!(with_widths(0, refused, [2, 2, 5, 47]).number, 6);
            assert_eq!(with_widths(1, refused, [2, 2, 5, 47]).number, 17);
            assert_eq!(with_widths(1, refused, [3, 3, 6, 48]).number, 17);
        }
        assert_eq!(with_widths(1, &[256; 3], [3, 3, 5, 48]).number, 7);
        assert_eq!(with_widths(1, &[256; 3], [3, 3, 6, 47]).number, 8);
        assert_eq!(
            with_widths(1, &[256, 256, 256, 257], [3, 3, 6, 48]).number,
            0
        );
        assert_eq!(with(1, 2, 3, 6, 48).number, 7);
        assert_eq!(with(1, 3, 2, 6, 48).number, 7);
        assert_eq!(with(1, 3, 3, 5, 47).number, 7);
        assert_eq!(with(0, 3, 3, 5, 47).number, 6);
        let refused = with(1, 3, 3, 6, 47);
        assert_eq!(refused.number, 8);
        assert_eq!(refused.work, [7; 47]);
        assert_eq!(refused.places, [-9; 3]);
        let laid = with(3, 4, 5, 7, 50);
        assert_eq!(laid.number, 0);
        assert_eq!(laid.places, [0, -1, 2, -9]);
        assert_eq!(laid.levels, [0, 1, 1, 9, 9]);
        assert_eq!(laid.record, [1, 2, 8, 8, 8, 8, 8]);
        assert_eq!(laid.work[..48], [0; 48]);
        assert_eq!(laid.work[48..], [7; 2]);
    }

    /// Demand 3 and what follows from the steps: the record is the neighbours in reading order,
    /// they keep the distance they need, a last child touches at that distance, and the width is
    /// bounded.
    fn hold_promises(table: &[u16], separation: u16, half_widths: &[u16]) {
        let laid = lay_out_wide(table, separation, half_widths);
        let pairs = pairs_of(&laid);
        assert_eq!(pairs, neighbours(table));
        let place = |node: u16| laid.places[usize::from(node)];
        let width = |node: u16| i32::from(half_widths[usize::from(node)]);
        let distance = |left, right| i32::from(separation) + width(left) + width(right);
        for &(left, right) in &pairs {
            assert!(place(right) - place(left) >= distance(left, right));
        }
        assert_eq!(laid.pairs + laid.level_count, laid.nodes);
        assert_eq!(laid.places[0], 0);
        let widest = half_widths.iter().max().expect("there is a root");
        let most = i32::from(separation) + 2 * i32::from(*widest);
        assert!(laid.greatest - laid.least <= (i32::from(laid.nodes) - 1) * most);
        let children = children_of(table);
        for family in children.iter().filter(|family| family.len() > 1) {
            let (last, elder) = family.split_last().expect("the family has children");
            let under_last = subtree_nodes(&children, &[*last]);
            let under_elder = subtree_nodes(&children, elder);
            assert!(pairs.iter().any(|&(left, right)| {
                under_elder.contains(&left)
                    && under_last.contains(&right)
                    && place(right) - place(left) == distance(left, right)
            }));
        }
    }

    fn subtree_nodes(children: &Children, roots: &[usize]) -> BTreeSet<u16> {
        let mut nodes = BTreeSet::new();
        let mut open = roots.to_vec();
        while let Some(node) = open.pop() {
            nodes.insert(node as u16);
            open.extend(&children[node]);
        }
        nodes
    }

    #[test]
    fn promises_on_every_small_tree_and_on_large_ones() {
        let mut random = Random::new(23);
        for nodes in 1..=8 {
            for table in shapes::every_tree(nodes) {
                for separation in [1, 2, 3, 5, 1_024] {
                    hold_promises(&table, separation, &vec![0; nodes]);
                    let half_widths = half_widths::of_any_kind(nodes, &mut random);
                    hold_promises(&table, separation, &half_widths);
                }
            }
        }
        for shape in &shapes::SHAPES {
            for nodes in [30, 100, 1_024] {
                let table = (shape.make)(nodes, &mut random);
                let table = shapes::renumbered_at_random(&table, &mut random);
                let half_widths = half_widths::of_any_kind(nodes, &mut random);
                hold_promises(&table, random.between(1, 1_024) as u16, &half_widths);
            }
        }
    }

    /// By how much each gap from child i to child j grows, left to right.
    fn growths(conflict: &Conflict) -> Vec<i64> {
        let (k, q, r) = (conflict.k(), conflict.q(), conflict.r());
        let growths: Vec<i64> = (0..k).map(|gap| q + i64::from(gap >= k - r)).collect();
        assert_eq!(growths.iter().sum::<i64>(), conflict.s);
        growths
    }

    /// The distances between siblings are those they need and what each conflict adds to the gaps
    /// between them.
    fn hold_gaps(table: &[u16], separation: u16, half_widths: &[u16]) {
        let children = children_of(table);
        let needed = needed(separation, half_widths);
        let mut gaps: Vec<Vec<i64>> = children
            .iter()
            .map(|family| {
                family
                    .windows(2)
                    .map(|pair| needed(pair[0], pair[1]))
                    .collect()
            })
            .collect();
        for conflict in conflicts(table, separation, half_widths) {
            let between = &mut gaps[conflict.parent][conflict.i..conflict.j];
            for (gap, growth) in between.iter_mut().zip(growths(&conflict)) {
                *gap += growth;
            }
        }
        let places = lay_out_wide(table, separation, half_widths).places;
        for (family, gaps) in children.iter().zip(gaps) {
            let distances = family
                .windows(2)
                .map(|pair| places[pair[1]] - places[pair[0]]);
            assert!(
                distances.map(i64::from).eq(gaps),
                "D = {separation}, {table:?}"
            );
        }
    }

    #[test]
    fn gaps_and_promises_where_conflicts_are_shared() {
        let mut random = Random::new(31);
        for (table, separation) in (1..=8).flat_map(shapes::every_tree).zip((1..=5).cycle()) {
            hold_gaps(&table, separation, &vec![0; table.len() / 2]);
            let half_widths = half_widths::of_any_kind(table.len() / 2, &mut random);
            hold_gaps(&table, separation, &half_widths);
        }
        for (_, trees) in shapes::made_for_conflicts(&mut random) {
            for (count, (table, separation)) in trees.into_iter().enumerate() {
                let mut half_widths = vec![0; table.len() / 2];
                if count % 2 == 0 {
                    half_widths = half_widths::of_any_kind(half_widths.len(), &mut random);
                }
                hold_gaps(&table, separation, &half_widths);
                if count % 15 == 0 {
                    hold_promises(&table, separation, &half_widths);
                }
            }
        }
    }

    #[test]
    fn without_half_widths_the_drawing_is_that_of_d_alone() {
        let mut random = Random::new(43);
        for table in (1..=7).flat_map(shapes::every_tree) {
            let separation = random.between(1, 9) as u16;
            let places = places_without_widths(&table, separation);
            assert_eq!(lay_out(&table, separation).places, places);
            // Equal half-widths are as good as a greater separation.
            let half_widths = vec![3; table.len() / 2];
            let wide = lay_out_wide(&table, separation, &half_widths);
            assert_eq!(wide.places, places_without_widths(&table, separation + 6));
        }
    }

    #[test]
    fn equal_subtrees_draw_as_they_do_alone() {
        // The root has the tree twice, with equal half-widths at every two corresponding nodes.
        let mut random = Random::new(29);
        for nodes in 1..60 {
            let table = shapes::mixed(nodes, &mut random);
            let half_widths = half_widths::of_any_kind(nodes, &mut random);
            let twice = [&[0], &half_widths[..], &half_widths].concat();
            let alone = lay_out_wide(&table, 7, &half_widths);
            let under = lay_out_wide(&shapes::twice(&table), 7, &twice);
            for part in under.places[1..].chunks(nodes) {
                let drawn: Vec<i32> = part.iter().map(|place| place - part[0]).collect();
                assert_eq!(drawn, alone.places);
            }
        }
    }
}
