//! The direct computations against the definitions tried map by map, on many
//! small random cases.

use second::brute;
use second::degree::{brute_degree, degree, margin, Degrees, DROPPED, UNMAPPED};
use second::fraction::Fraction;
use second::gen::requirements::tree;
use second::gen::{self, small_pair, small_plain, small_register, Palette, Rng};
use second::judged::Judged;
use second::member::{brute_member, member};
use second::reduce::{as_written, reduce, subsumed, whole_map_exists, Concept, Kept};
use second::register;
use second::requirement::{self, written, Node};

#[test]
fn subsumption_is_the_existence_of_a_whole_map() {
    let mut rng = Rng::new(11);
    let mut found = [0, 0];
    for _ in 0..4000 {
        let palette = Palette::any(&mut rng);
        let (nodes_c, nodes_d) = (rng.between(1, 4), rng.between(1, 5));
        let c = as_written(&tree(&mut rng, &palette, nodes_c, 3));
        let d = as_written(&tree(&mut rng, &palette, nodes_d, 3));
        let direct = whole_map_exists(&c, &d);
        assert_eq!(direct, brute::whole_map_exists(&c, &d));
        assert_eq!(direct, subsumed(&d, &c));
        found[usize::from(direct)] += 1;
    }
    assert!(
        found[0] > 400 && found[1] > 400,
        "both answers are common: {found:?}"
    );
}

/// Which written nodes go, decided by the written subtrees with brute maps,
/// and not from the leaves up: the rule must come to the same.
fn dropped_by_definition(root: &Node) -> Vec<bool> {
    fn visit(node: &Kept, gone: bool, dropped: &mut Vec<bool>) {
        dropped.push(gone);
        for (i, (role_i, child_i)) in node.children.iter().enumerate() {
            let goes = node
                .children
                .iter()
                .enumerate()
                .any(|(j, (role_j, child_j))| {
                    i != j
                        && role_i == role_j
                        && brute::whole_map_exists(child_i, child_j)
                        && (!brute::whole_map_exists(child_j, child_i) || j < i)
                });
            visit(child_i, gone || goes, dropped);
        }
    }
    let mut dropped = Vec::new();
    visit(&as_written(root), false, &mut dropped);
    dropped
}

fn no_kept_child_subsumes_a_sibling(node: &Kept) -> bool {
    node.children
        .iter()
        .enumerate()
        .all(|(i, (role_i, child_i))| {
            node.children
                .iter()
                .enumerate()
                .all(|(j, (role_j, child_j))| {
                    i == j || role_i != role_j || !subsumed(child_j, child_i)
                })
                && no_kept_child_subsumes_a_sibling(child_i)
        })
}

#[test]
fn reduction_drops_what_the_rule_says() {
    let mut rng = Rng::new(12);
    let mut with_drops = 0;
    for _ in 0..4000 {
        let palette = Palette::any(&mut rng);
        let root = small_plain(&mut rng, &palette);
        let concept = reduce(&root);
        assert_eq!(concept.dropped, dropped_by_definition(&root), "{root:?}");
        with_drops += usize::from(concept.dropped.contains(&true));
    }
    assert!(with_drops > 800, "drops are common: {with_drops}");
}

#[test]
fn a_reduced_tree_is_equivalent_and_irredundant() {
    let mut rng = Rng::new(13);
    let mut with_drops = 0;
    for _ in 0..2000 {
        let palette = Palette::any(&mut rng);
        let root = gen::plain(&mut rng, &palette);
        let concept = reduce(&root);
        let whole = as_written(&root);
        assert!(subsumed(&concept.root, &whole) && subsumed(&whole, &concept.root));
        assert!(no_kept_child_subsumes_a_sibling(&concept.root));
        assert_eq!(concept.written_nodes(), written(&root).len());
        with_drops += usize::from(concept.dropped.contains(&true));
        if concept.size() <= 60 {
            assert!(concept.scale().unwrap() <= 3u128.pow(20));
        }
    }
    assert!(with_drops > 1000, "drops are common: {with_drops}");
}

#[test]
fn the_greatest_scale_is_reached() {
    let concept = reduce(&gen::edges::threes(20));
    assert_eq!(concept.size(), 60);
    assert_eq!(concept.scale(), Some(3_486_784_401));
    assert!(!concept.dropped.contains(&true));
}

/// The map shown, worked out from degrees that were tried map by map.
fn shown_by_definition(judged: &Judged, concept: &Concept, item: u16) -> Vec<u16> {
    fn visit(judged: &Judged, node: &Kept, item: u16, map: &mut [u16]) {
        map[node.number] = item;
        for (role, child) in &node.children {
            let successors: Vec<u16> = judged
                .each()
                .filter(|to| judged.has_link((item, *role, *to)))
                .collect();
            let degree_of = |to: &u16| brute::degree_at(judged, child, *to);
            if let Some(greatest) = successors.iter().map(degree_of).max() {
                let lowest = successors.iter().find(|to| degree_of(to) == greatest);
                visit(judged, child, *lowest.expect("one has the greatest"), map);
            }
        }
    }
    let mut map: Vec<u16> = concept
        .dropped
        .iter()
        .map(|gone| if *gone { DROPPED } else { UNMAPPED })
        .collect();
    visit(judged, &concept.root, item, &mut map);
    map
}

#[test]
fn the_degree_is_the_greatest_over_all_partial_maps() {
    let mut rng = Rng::new(14);
    let mut strictly_between = 0;
    let mut unmapped = 0;
    for _ in 0..6000 {
        let palette = Palette::any(&mut rng);
        let register = small_register(&mut rng, &palette);
        let root = small_plain(&mut rng, &palette);
        let concept = reduce(&root);
        let register_bytes = register::encode(&register);
        let requirement_bytes = requirement::encode(&root);
        let judged = Judged::of(&register);
        for item in judged.each() {
            let greatest = brute_degree(&judged, &concept, item.into()).unwrap();
            let (num, den, map) =
                degree(&register_bytes, &requirement_bytes, item.into(), 64).unwrap();
            assert_eq!(
                Fraction {
                    num: num.into(),
                    den: den.into()
                },
                greatest
            );
            assert_eq!(map, shown_by_definition(&judged, &concept, item));
            assert_eq!(concept.scale().unwrap() % greatest.den, 0);
            strictly_between += usize::from(num > 0 && num < den);
            unmapped += usize::from(map.contains(&UNMAPPED));
        }
    }
    assert!(strictly_between > 4000, "{strictly_between}");
    assert!(unmapped > 1000, "{unmapped}");
}

#[test]
fn the_margin_is_the_difference_over_the_common_product() {
    let mut rng = Rng::new(15);
    let mut signs = [0; 3];
    for _ in 0..3000 {
        let palette = Palette::any(&mut rng);
        let register = small_register(&mut rng, &palette);
        let root = small_plain(&mut rng, &palette);
        let item = rng.below(register.items() as u64);
        let concept = reduce(&root);
        let Some(greatest) = brute_degree(&Judged::of(&register), &concept, item) else {
            continue;
        };
        let (p, q) = if rng.chance(4) && greatest.den <= 1000 {
            (greatest.num as u16, greatest.den as u16)
        } else {
            gen::requirements::fraction(&mut rng)
        };
        let answer = margin(
            &register::encode(&register),
            &requirement::encode(&root),
            item,
            p.into(),
            q.into(),
        );
        let (difference, over) = answer.unwrap();
        // degree = p/q + difference/over, without a minus sign anywhere.
        let threshold = Fraction::new(p.into(), q.into());
        let step = Fraction::new(difference.unsigned_abs().into(), over.into());
        if difference >= 0 {
            assert_eq!(threshold.plus(step), greatest);
        } else {
            assert_eq!(greatest.plus(step), threshold);
        }
        assert_eq!(u128::from(over), greatest.den * u128::from(q));
        signs[(difference.signum() + 1) as usize] += 1;
    }
    assert!(signs.iter().all(|count| *count > 300), "{signs:?}");
}

#[test]
fn a_yes_is_a_whole_threshold_respecting_map() {
    let mut rng = Rng::new(16);
    let mut answers = [0, 0];
    let mut yes_with_children = 0;
    for _ in 0..3000 {
        let (register, root) = small_pair(&mut rng);
        let register_bytes = register::encode(&register);
        let requirement_bytes = requirement::encode(&root);
        let judged = Judged::of(&register);
        for item in judged.each().map(u64::from) {
            let map = member(&register_bytes, &requirement_bytes, item, 64).unwrap();
            let exists = brute_member(&judged, &root, item).unwrap();
            assert_eq!(map.is_some(), exists);
            answers[usize::from(exists)] += 1;
            if let Some(map) = map {
                yes_with_children += usize::from(map.len() > 1);
                check_yes_map(&judged, &root, item, &map);
            }
        }
    }
    assert!(
        answers[0] > 1500 && answers[1] > 1000,
        "both answers are common: {answers:?}"
    );
    assert!(yes_with_children > 500, "{yes_with_children}");
}

/// Each child goes to the lowest-numbered successor from which the rest of its
/// tree can be met, by brute force.
fn check_yes_map(judged: &Judged, root: &Node, item: u64, map: &[u16]) {
    let nodes = written(root);
    assert_eq!(map.len(), nodes.len());
    assert_eq!(u64::from(map[0]), item);
    for (number, written) in nodes.iter().enumerate().skip(1) {
        let (parent, role) = written.above.unwrap();
        let lowest = judged.each().find(|to| {
            judged.has_link((map[parent], role, *to))
                && brute_member(judged, written.node, (*to).into()) == Some(true)
        });
        assert_eq!(Some(map[number]), lowest);
    }
}

#[test]
fn without_thresholds_a_yes_is_degree_one() {
    let mut rng = Rng::new(17);
    let mut answers = [0, 0];
    for _ in 0..1500 {
        let palette = Palette::any(&mut rng);
        let register = gen::medium_register(&mut rng, &palette);
        let root = gen::plain_within_size(&mut rng, &palette);
        let concept = reduce(&root);
        let judged = Judged::of(&register);
        let mut degrees = Degrees::of(&judged, &concept).unwrap();
        let item = rng.below(register.items() as u64);
        if !judged.has(item as u16) {
            continue;
        }
        let whole = degrees.at(item as u16) == Fraction::ONE;
        let answer = member(
            &register::encode(&register),
            &requirement::encode(&root),
            item,
            64,
        )
        .unwrap();
        assert_eq!(answer.is_some(), whole);
        answers[usize::from(whole)] += 1;
    }
    assert!(
        answers[0] > 100 && answers[1] > 100,
        "both answers are common: {answers:?}"
    );
}

#[test]
fn the_degree_map_reaches_the_degree() {
    // On medium cases, too large for trying all maps: the shown map, scored
    // by the definition of a node's value, must give the answered degree.
    fn value(judged: &Judged, node: &Kept, map: &[u16]) -> Fraction {
        if node.n() == 0 {
            return Fraction::ONE;
        }
        let item = map[node.number];
        let common = node.names & judged.names(item);
        let mut sum = Fraction::whole(common.count_ones().into());
        for (role, child) in &node.children {
            let to = map[child.number];
            if to != UNMAPPED {
                assert!(judged.has_link((item, *role, to)));
                sum = sum.plus(value(judged, child, map));
            }
        }
        sum.over(node.n() as u128)
    }
    let mut rng = Rng::new(18);
    for _ in 0..800 {
        let palette = Palette::any(&mut rng);
        let register = gen::medium_register(&mut rng, &palette);
        let root = gen::plain_within_size(&mut rng, &palette);
        let concept = reduce(&root);
        let judged = Judged::of(&register);
        let mut degrees = Degrees::of(&judged, &concept).unwrap();
        for item in judged.each() {
            let map = degrees.map(item);
            assert_eq!(value(&judged, &concept.root, &map), degrees.at(item));
        }
    }
}
