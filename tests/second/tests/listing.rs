//! What the listing program prints, beside the sheet's own example.

use second::degree::degree;
use second::gen::edges::{Q1, R1};
use second::gen::{any_pair, any_pair_bytes, largest_register, plain_within_size, Palette, Rng};
use second::listing::listing;
use second::member::member;
use second::register;
use second::requirement::{self, Comparison, Node, Threshold};

fn printed(parts: &[&[u8]]) -> String {
    String::from_utf8(listing(&parts.concat())).expect("the listing is plain text")
}

#[test]
fn refusals_are_one_line() {
    assert_eq!(printed(&[]), "register refused 1 at 0\n");
    assert_eq!(printed(&[&[1, 0]]), "register refused 1 at 0\n");
    assert_eq!(printed(&[&R1[..40]]), "register refused 3 at 1\n");
    assert_eq!(printed(&[&[1, 0, 0]]), "register refused 1 at 3\n");
    assert_eq!(printed(&[&R1]), "requirement refused 1 at 0\n");
    assert_eq!(printed(&[&R1, &Q1[..2]]), "requirement refused 1 at 0\n");
    assert_eq!(printed(&[&R1, &Q1, &[0]]), "requirement refused 3 at 1\n");
    let large = requirement::encode(&Node::leaf(u64::MAX));
    assert_eq!(printed(&[&R1, &large]), "requirement refused 14 at 3\n");
    // The register comes first, whatever follows it.
    let mut bad = R1;
    bad[0] = 7;
    assert_eq!(printed(&[&bad, &[9, 9, 9]]), "register refused 2 at 0\n");
    let mut role = R1;
    role[38] = 32;
    assert_eq!(printed(&[&role]), "register refused 7 at 38\n");
}

#[test]
fn the_longest_input() {
    let rest = vec![0; 65_536 - R1.len()];
    assert_eq!(printed(&[&R1, &rest]), "requirement refused 2 at 0\n");
    assert_eq!(printed(&[&R1, &rest, &[0]]), "input too long\n");
    assert_eq!(printed(&[&vec![1; 70_000]]), "input too long\n");
}

#[test]
fn dropped_nodes_are_shown() {
    let children = vec![(0, Node::leaf(2)), (0, Node::leaf(6))];
    let root = Node {
        names: 0,
        thresholds: vec![],
        children,
    };
    assert_eq!(
        printed(&[&R1, &requirement::encode(&root)]),
        "item degree map\n0 1/2 0,=,1\n1 0/1 1,=,-\n2 0/1 2,=,-\n"
    );
}

#[test]
fn thresholds_are_answered_yes_or_no() {
    let threshold = Threshold {
        comparison: Comparison::AtLeast,
        p: 2,
        q: 3,
        inner: requirement::read(&Q1).unwrap(),
        start: 0,
        len: 0,
    };
    // Role 0 to nothing in particular, beside the threshold.
    let root = Node {
        names: 8,
        thresholds: vec![threshold],
        children: vec![(0, Node::leaf(0))],
    };
    assert_eq!(
        printed(&[&R1, &requirement::encode(&root)]),
        "item member map\n0 yes 0,1\n1 no -\n2 no -\n"
    );
}

/// The lines, put together from the calls themselves.
fn by_calls(register: &[u8], requirement: &[u8]) -> String {
    let root = match register::read_whole(register).map(|_| requirement::read(requirement)) {
        Err(refusal) | Ok(Err(refusal)) => return format!("{refusal}\n"),
        Ok(Ok(root)) => root,
    };
    let items = register::read_whole(register).unwrap().items() as u64;
    let plain = requirement::thresholds(&root).is_empty();
    let mut text = format!("item {} map\n", if plain { "degree" } else { "member" });
    for item in 0..items {
        let (second, map) = if plain {
            match degree(register, requirement, item, 64) {
                Err(refusal) if refusal.number == 26 => ("withdrawn".to_string(), vec![65_535]),
                Err(refusal) => return format!("{refusal}\n"),
                Ok((num, den, map)) => (format!("{num}/{den}"), map),
            }
        } else {
            match member(register, requirement, item, 64) {
                Err(refusal) => {
                    assert_eq!(refusal.number, 26);
                    ("withdrawn".to_string(), vec![65_535])
                }
                Ok(Some(map)) => ("yes".to_string(), map),
                Ok(None) => ("no".to_string(), vec![65_535]),
            }
        };
        let map: Vec<String> = map
            .iter()
            .map(|to| match to {
                65_535 => "-".to_string(),
                65_534 => "=".to_string(),
                _ => to.to_string(),
            })
            .collect();
        text.push_str(&format!("{item} {second} {}\n", map.join(",")));
    }
    text
}

#[test]
fn the_listing_is_what_the_calls_answer() {
    let mut rng = Rng::new(41);
    let mut kinds = [0; 4];
    for round in 0..900 {
        let (register, requirement) = if round % 2 == 0 {
            any_pair_bytes(&mut rng)
        } else {
            let (register, root) = any_pair(&mut rng);
            (register::encode(&register), requirement::encode(&root))
        };
        if register.len() > 5000 {
            // One call for each of 512 items takes too long here.
            continue;
        }
        let text = printed(&[&register, &requirement]);
        // A wrong length in the register's head moves the border between the
        // two, and then the calls are asked of the bytes so divided.
        let (register, requirement) = {
            let all = [register, requirement].concat();
            let (one, two) = second::listing::split(&all);
            (one.to_vec(), two.to_vec())
        };
        assert_eq!(text, by_calls(&register, &requirement));
        let kind = ["register", "requirement", "item degree", "item member"]
            .iter()
            .position(|start| text.starts_with(start))
            .expect("one of the four");
        kinds[kind] += 1;
    }
    assert!(kinds.iter().all(|count| *count > 30), "{kinds:?}");
}

#[test]
fn the_largest_register_is_listed_whole() {
    let mut rng = Rng::new(42);
    for _ in 0..6 {
        let palette = Palette::any(&mut rng);
        let register = register::encode(&largest_register(&mut rng, &palette));
        let root = plain_within_size(&mut rng, &palette);
        let requirement = requirement::encode(&root);
        let text = printed(&[&register, &requirement]);
        assert_eq!(text.lines().count(), 513);
        for _ in 0..4 {
            let item = rng.below(512);
            let line = text.lines().nth(item as usize + 1).unwrap();
            let Ok((num, den, map)) = degree(&register, &requirement, item, 64) else {
                assert_eq!(line, format!("{item} withdrawn -"));
                continue;
            };
            assert!(line.starts_with(&format!("{item} {num}/{den} {item}")));
            assert_eq!(line.split(',').count(), map.len());
        }
    }
}

#[test]
fn the_border_is_three_and_the_length() {
    use second::listing::split;
    assert_eq!(split(&[]), (&[][..], &[][..]));
    assert_eq!(split(&[1, 0]), (&[1, 0][..], &[][..]));
    assert_eq!(split(&[1, 0, 0, 5]), (&[1, 0, 0][..], &[5][..]));
    assert_eq!(split(&[9, 0, 1, 5, 6]), (&[9, 0, 1, 5][..], &[6][..]));
    assert_eq!(split(&[1, 1, 0, 5]), (&[1, 1, 0, 5][..], &[][..]));
}
