//! Document 01's sheet of examples, starred or not, with the answers that it
//! gives: registers and requirements as bytes, answers by hand.

use second::gen::edges::{threes, Q1, R1};
use second::list::List;
use second::reduce::reduce;
use second::register::{self, Link, Register};
use second::requirement::{self, Comparison, Node, Threshold};
use second::Refusal;

/// A set of names.
pub fn set(names: &[u32]) -> u64 {
    names.iter().map(|name| 1u64 << name).sum()
}

pub fn node(names: &[u32], children: Vec<(u8, Node)>) -> Node {
    Node {
        names: set(names),
        thresholds: Vec::new(),
        children,
    }
}

pub fn leaf(names: &[u32]) -> Node {
    node(names, Vec::new())
}

pub fn image(names: &[&[u32]], links: &[Link]) -> Vec<u8> {
    let names = names.iter().map(|names| set(names)).collect();
    register::encode(&Register {
        names,
        links: links.to_vec(),
    })
}

pub fn threshold(comparison: Comparison, p: u16, q: u16, inner: Node) -> Threshold {
    Threshold {
        comparison,
        p,
        q,
        inner,
        start: 0,
        len: 0,
    }
}

/// A root that asks for the thresholds and nothing else.
pub fn asking(thresholds: Vec<Threshold>) -> Node {
    Node {
        thresholds,
        ..leaf(&[])
    }
}

/// One question of the sheet and what it says to it.
pub struct Row<A> {
    pub image: Vec<u8>,
    pub message: Vec<u8>,
    pub item: u64,
    pub says: A,
}

fn row<A>(image: &[u8], root: &Node, item: u64, says: A) -> Row<A> {
    Row {
        image: image.to_vec(),
        message: requirement::encode(root),
        item,
        says,
    }
}

/// Numerator, denominator and map, or a refusal.
pub type Degree = Result<(u64, u64, Vec<u16>), Refusal>;

pub fn degrees() -> Vec<Row<Degree>> {
    let good = |num, den, map: &[u16]| Ok((num, den, map.to_vec()));
    let q1 = q1();
    let mut rows = vec![
        row(&R1, &q1, 0, good(2, 3, &[0, 1])),
        row(&R1, &q1, 1, good(1, 3, &[1, 65_535])),
        row(&R1, &q1, 2, good(1, 3, &[2, 65_535])),
        row(&R1, &leaf(&[]), 2, good(1, 1, &[2])),
    ];
    let one_and_both = node(&[], vec![(0, leaf(&[1])), (0, leaf(&[1, 2]))]);
    rows.push(row(&R1, &one_and_both, 0, good(1, 2, &[0, 65_534, 1])));
    let twice = node(&[], vec![(0, leaf(&[1])), (0, leaf(&[1]))]);
    rows.push(row(&R1, &twice, 0, good(1, 1, &[0, 1, 65_534])));
    let apart = node(&[], vec![(0, leaf(&[1])), (0, leaf(&[2]))]);
    let holds_both = image(&[&[], &[1, 2]], &[(0, 0, 1)]);
    rows.push(row(&holds_both, &apart, 0, good(1, 1, &[0, 1, 1])));
    let (two, root) = not_by_names_alone();
    rows.push(row(&two, &root, 0, good(2, 3, &[0, 2, 3, 4])));
    let itself = image(&[&[]], &[(0, 0, 0)]);
    let to_one = node(&[], vec![(0, node(&[], vec![(0, leaf(&[1]))]))]);
    rows.push(row(&itself, &to_one, 0, good(0, 1, &[0, 0, 0])));
    let to_none = node(&[], vec![(0, node(&[], vec![(0, leaf(&[]))]))]);
    rows.push(row(&itself, &to_none, 0, good(1, 1, &[0, 0, 0])));
    let equal = image(&[&[], &[], &[1], &[], &[1]], &[(0, 0, 2), (0, 0, 4)]);
    let to_a_holder = node(&[], vec![(0, leaf(&[1]))]);
    rows.push(row(&equal, &to_a_holder, 0, good(1, 1, &[0, 2])));
    rows.extend(sizes());
    rows.extend(no_bytes());
    rows
}

fn q1() -> Node {
    node(&[1, 2], vec![(0, leaf(&[1]))])
}

/// One successor holds the name and has no links, the other lacks it and has
/// them.
fn not_by_names_alone() -> (Vec<u8>, Node) {
    let image = image(
        &[&[], &[1], &[], &[2], &[3]],
        &[(0, 0, 1), (0, 0, 2), (2, 1, 3), (2, 1, 4)],
    );
    let child = node(&[1], vec![(1, leaf(&[2])), (1, leaf(&[3]))]);
    (image, node(&[], vec![(0, child)]))
}

/// Item 0 of R1 holds names 1 and 3.
fn sizes() -> [Row<Degree>; 3] {
    let first = |count: u32| (0..count).collect::<Vec<u32>>();
    let twice = node(&first(58), vec![(0, leaf(&[1])), (0, leaf(&[1]))]);
    let too_large = Err(Refusal::requirement(14, 3));
    [
        row(&R1, &leaf(&first(60)), 0, Ok((1, 30, vec![0]))),
        row(&R1, &leaf(&first(61)), 0, too_large),
        row(&R1, &twice, 0, Ok((3, 59, vec![0, 1, 65_534]))),
    ]
}

fn no_bytes() -> [Row<Degree>; 2] {
    [
        Row {
            image: Vec::new(),
            message: Q1.to_vec(),
            item: 0,
            says: Err(Refusal::register(1, 0)),
        },
        Row {
            image: R1.to_vec(),
            message: Vec::new(),
            item: 0,
            says: Err(Refusal::requirement(1, 0)),
        },
    ]
}

/// A whole list of the sheet's: image, message and what it comes to.
pub type Listed = (Vec<u8>, Vec<u8>, Result<List, Refusal>);

fn listed(image: &[u8], root: &Node, scale: u32, rows: &[&[u32]]) -> Listed {
    let list = List {
        items: rows[0].len(),
        nodes: rows.len(),
        scale,
        table: rows.concat(),
    };
    (image.to_vec(), requirement::encode(root), Ok(list))
}

/// The sheet's rows as whole lists, and some more: the tables by hand, a row of
/// them for each written node.
pub fn lists() -> Vec<Listed> {
    let one_and_both = node(&[], vec![(0, leaf(&[1])), (0, leaf(&[1, 2]))]);
    let twice = node(&[], vec![(0, leaf(&[1])), (0, leaf(&[1]))]);
    let apart = node(&[], vec![(0, leaf(&[1])), (0, leaf(&[2]))]);
    let holds_both = image(&[&[], &[1, 2]], &[(0, 0, 1)]);
    let itself = image(&[&[]], &[(0, 0, 0)]);
    let to_one = node(&[], vec![(0, node(&[], vec![(0, leaf(&[1]))]))]);
    let to_none = node(&[], vec![(0, node(&[], vec![(0, leaf(&[]))]))]);
    let equal = image(&[&[], &[], &[1], &[], &[1]], &[(0, 0, 2), (0, 0, 4)]);
    let to_a_holder = node(&[], vec![(0, leaf(&[1]))]);
    let mut rows = vec![
        listed(&R1, &q1(), 3, &[&[2, 1, 1], &[1, 1, 0]]),
        listed(&R1, &leaf(&[]), 1, &[&[1, 1, 1]]),
        listed(&R1, &one_and_both, 2, &[&[1, 0, 0], &[0; 3], &[1, 1, 1]]),
        listed(&R1, &twice, 1, &[&[1, 0, 0], &[1, 1, 0], &[0; 3]]),
        listed(&holds_both, &apart, 2, &[&[2, 0], &[0, 1], &[0, 1]]),
        listed(&itself, &to_one, 1, &[&[0], &[0], &[0]]),
        listed(&itself, &to_none, 1, &[&[1], &[1], &[1]]),
        listed(
            &equal,
            &to_a_holder,
            1,
            &[&[1, 0, 0, 0, 0], &[0, 0, 1, 0, 1]],
        ),
    ];
    let (two, root) = not_by_names_alone();
    let by_leaves: [&[u32]; 2] = [&[0, 0, 0, 1, 0], &[0, 0, 0, 0, 1]];
    let by_nodes: [&[u32]; 2] = [&[2, 0, 0, 0, 0], &[0, 1, 2, 0, 0]];
    rows.push(listed(&two, &root, 3, &[by_nodes, by_leaves].concat()));
    rows.push(listed_with_a_branch_dropped());
    rows.extend(listed_sizes());
    rows.push(listed_greatest());
    rows.push(listed_great_child());
    rows.push((vec![], Q1.to_vec(), Err(Refusal::register(1, 0))));
    rows.push((R1.to_vec(), vec![], Err(Refusal::requirement(1, 0))));
    rows
}

/// The first child says nothing that the second does not say, and goes with
/// what is below it.
fn listed_with_a_branch_dropped() -> Listed {
    let lesser = node(&[], vec![(1, leaf(&[]))]);
    let greater = node(&[1], vec![(1, leaf(&[2]))]);
    let root = node(&[], vec![(0, lesser), (0, greater)]);
    let rows: [&[u32]; 5] = [&[1, 0, 0], &[0; 3], &[0; 3], &[2, 1, 0], &[0, 0, 1]];
    listed(&R1, &root, 2, &rows)
}

/// As [`sizes`].
fn listed_sizes() -> [Listed; 3] {
    let first = |count: u32| (0..count).collect::<Vec<u32>>();
    let twice = node(&first(58), vec![(0, leaf(&[1])), (0, leaf(&[1]))]);
    let too_large = requirement::encode(&leaf(&first(61)));
    [
        listed(&R1, &leaf(&first(60)), 60, &[&[2, 1, 1]]),
        (R1.to_vec(), too_large, Err(Refusal::requirement(14, 3))),
        listed(&R1, &twice, 59, &[&[3, 1, 1], &[1, 1, 0], &[0; 3]]),
    ]
}

/// An item that holds every name but 63 and is linked to itself meets 20 nodes of three
/// things each: the number of each is its scale, 3 to the power of the nodes
/// from there on down.
fn listed_greatest() -> Listed {
    let every: Vec<u32> = (0..63).collect();
    let all = image(&[&every], &[(0, 0, 0), (0, 1, 0)]);
    let root = threes(20);
    let nodes = |node: &Node| requirement::written(node).len() as u32;
    let numbers: Vec<[u32; 1]> = requirement::written(&root)
        .iter()
        .map(|written| [3u32.pow(nodes(written.node))])
        .collect();
    let rows: Vec<&[u32]> = numbers.iter().map(|number| &number[..]).collect();
    listed(&all, &root, 3_486_784_401, &rows)
}

/// A child whose scale is 2 × 3^19, above half of what 32 bits hold. Item 0
/// meets all of it and item 1 nothing; item 2 is linked to both under role 0
/// alone, so of a node with children, of which the first is under role 0, it
/// meets one part in n.
fn listed_great_child() -> Listed {
    let every: Vec<u32> = (0..63).collect();
    let links = [(0, 0, 0), (0, 1, 0), (2, 0, 0), (2, 0, 1)];
    let image = image(&[&every, &[], &[]], &links);
    let child = Node {
        names: 0,
        ..threes(20)
    };
    let root = node(&[], vec![(0, child)]);
    let of_node = |node: &Node| {
        let kept = reduce(node).root;
        let scale = kept.scale().expect("within size") as u32;
        let first = match kept.children.is_empty() {
            true => 0,
            false => scale / kept.n() as u32,
        };
        [scale, 0, first]
    };
    let written = requirement::written(&root);
    let numbers: Vec<[u32; 3]> = written.iter().map(|one| of_node(one.node)).collect();
    let rows: Vec<&[u32]> = numbers.iter().map(|row| &row[..]).collect();
    listed(&image, &root, 2_324_522_934, &rows)
}

/// p, q, then the margin and what it stands over, for Q1 at item 0 of R1.
pub const MARGINS: [(u64, u64, i64, u64); 3] = [(3, 4, -1, 12), (2, 3, 0, 9), (1, 2, 1, 6)];

/// A map for yes, none for no.
pub fn members() -> Vec<Row<Option<Vec<u16>>>> {
    let against = |comparison, p, q| asking(vec![threshold(comparison, p, q, q1())]);
    let yes = Some(vec![0]);
    let mut rows = vec![
        row(&R1, &against(Comparison::AtLeast, 2, 3), 0, yes.clone()),
        row(&R1, &against(Comparison::AtMost, 2, 3), 0, yes.clone()),
        row(&R1, &against(Comparison::Above, 2, 3), 0, None),
        row(&R1, &against(Comparison::Below, 2, 3), 0, None),
        // Of the slips: 2/3 as 0.67 would pass.
        row(&R1, &against(Comparison::AtLeast, 67, 100), 0, None),
        row(&R1, &against(Comparison::Below, 67, 100), 0, yes),
    ];
    let equal = image(&[&[], &[], &[1], &[], &[1]], &[(0, 0, 2), (0, 0, 4)]);
    let to_a_holder = node(&[], vec![(0, leaf(&[1]))]);
    rows.push(row(&equal, &to_a_holder, 0, Some(vec![0, 2])));
    rows
}
