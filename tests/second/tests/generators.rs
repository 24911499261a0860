//! The generators make what they promise: a comparison over inputs that never
//! meet an edge would prove little.

use std::collections::{BTreeMap, BTreeSet};

use second::degree::{degree, Degrees, DROPPED, UNMAPPED};
use second::gen::*;
use second::judged::Judged;
use second::member::member;
use second::reduce::reduce;
use second::register::{self, read_whole};
use second::requirement::{self, thresholds, written, Node};
use second::Refusal;

#[test]
fn the_same_seed_gives_the_same_inputs() {
    let inputs = |seed| {
        let mut rng = Rng::new(seed);
        (0..50)
            .map(|_| any_pair_bytes(&mut rng))
            .collect::<Vec<_>>()
    };
    assert_eq!(inputs(5), inputs(5));
    assert_ne!(inputs(5), inputs(6));
}

#[test]
fn the_largest_register_is_the_largest() {
    let mut rng = Rng::new(51);
    for _ in 0..10 {
        let palette = Palette::any(&mut rng);
        let register = largest_register(&mut rng, &palette);
        assert_eq!((register.items(), register.links.len()), (512, 4096));
        assert_eq!(register::encode(&register).len(), 24_583);
        assert!(register.links.iter().any(|(from, _, to)| from == to));
        let targets: BTreeSet<u16> = register.links.iter().map(|link| link.2).collect();
        assert!(targets.len() < register.links.len());
    }
}

#[test]
fn damage_meets_every_number() {
    let mut rng = Rng::new(52);
    let mut on_register = BTreeSet::new();
    let mut on_requirement = BTreeMap::new();
    for _ in 0..20_000 {
        let (register, root) = small_pair(&mut rng);
        let bytes = damaged_register(&mut rng, &register);
        on_register.extend(read_whole(&bytes).err().map(|refusal| refusal.number));
        let bytes = damaged_requirement(&mut rng, &root);
        if let Err(refusal) = requirement::read(&bytes) {
            *on_requirement.entry(refusal.number).or_insert(0) += 1;
        }
    }
    assert_eq!(Vec::from_iter(on_register), [1, 2, 3, 4, 5, 6, 7, 8]);
    assert_eq!(
        Vec::from_iter(on_requirement.keys().copied()),
        [1, 2, 3, 7, 8, 9, 10, 11, 12, 13, 14, 23, 24, 25]
    );
    for number in [13, 23, 24, 25] {
        let times: u32 = on_requirement[&number];
        assert!(times > 200, "{number}: {times} times");
    }
}

fn depth(node: &Node) -> usize {
    node.children
        .iter()
        .map(|(_, child)| 1 + depth(child))
        .max()
        .unwrap_or(0)
}

#[test]
fn good_requirements_reach_the_bounds() {
    let mut rng = Rng::new(53);
    let mut most_nodes = 0;
    let mut deepest = 0;
    let mut most_thresholds = 0;
    let mut most_size = 0;
    for _ in 0..1500 {
        let palette = Palette::any(&mut rng);
        let register = small_register(&mut rng, &palette);
        let root = plain_within_size(&mut rng, &palette);
        let concept = reduce(&root);
        assert!(concept.size() <= 60);
        most_size = most_size.max(concept.size());
        most_nodes = most_nodes.max(written(&root).len());
        deepest = deepest.max(depth(&root));
        let root = with_thresholds(&mut rng, &palette, &register);
        most_thresholds = most_thresholds.max(thresholds(&root).len());
    }
    assert_eq!(
        (most_nodes, deepest, most_thresholds, most_size),
        (64, 16, 16, 60)
    );
}

#[test]
fn thresholds_are_often_just_met() {
    // The fractions stand at a degree of the register often enough to tell
    // the strict comparisons from the others.
    let mut rng = Rng::new(54);
    let (mut at, mut all) = (0, 0);
    for _ in 0..1000 {
        let palette = Palette::any(&mut rng);
        let register = small_register(&mut rng, &palette);
        let root = small_with_thresholds(&mut rng, &palette, &register);
        for threshold in thresholds(&root) {
            let concept = reduce(&threshold.inner);
            let judged = Judged::of(&register);
            let mut degrees = Degrees::of(&judged, &concept).unwrap();
            for item in judged.each() {
                let degree = degrees.at(item);
                let same = degree.num == threshold.p.into() && degree.den == threshold.q.into();
                at += usize::from(same);
                all += 1;
            }
        }
    }
    assert!(at * 4 > all, "{at} of {all}");
}

#[test]
fn pairs_give_every_kind_of_answer() {
    let mut rng = Rng::new(55);
    let mut degrees = BTreeSet::new();
    let (mut yes, mut no, mut dropped, mut unmapped, mut withdrawn) = (0, 0, 0, 0, 0);
    for _ in 0..3000 {
        let (register, root) = any_pair(&mut rng);
        let register_bytes = register::encode(&register);
        let requirement_bytes = requirement::encode(&root);
        let item = rng.below(register.items() as u64);
        if let Ok((num, den, map)) = degree(&register_bytes, &requirement_bytes, item, 64) {
            degrees.insert((num, den));
            dropped += usize::from(map.contains(&DROPPED));
            unmapped += usize::from(map.contains(&UNMAPPED));
        }
        match member(&register_bytes, &requirement_bytes, item, 64) {
            Ok(Some(_)) => yes += 1,
            Ok(None) => no += 1,
            Err(refusal) => {
                assert_eq!(refusal, Refusal::call(26));
                withdrawn += 1;
            }
        }
    }
    assert!(degrees.len() > 200, "{} degrees", degrees.len());
    assert!(
        degrees.iter().any(|(_, den)| *den > 1_000_000),
        "no large denominator"
    );
    assert!(yes > 300 && no > 300, "{yes} yes, {no} no");
    assert!(withdrawn > 300, "{withdrawn} withdrawn");
    assert!(
        dropped > 300 && unmapped > 300,
        "{dropped} dropped, {unmapped} unmapped"
    );
}
