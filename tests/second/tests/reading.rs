//! Reading: round trips both ways, and left to right with the first fault
//! winning.

use second::gen::{
    self, any_pair, any_pair_bytes, damaged_register, damaged_requirement, random_bytes, Rng,
};
use second::register::{self, read_session, read_whole};
use second::requirement::{self, inner_part, put_node, thresholds, written, Node};
use second::Refusal;

#[test]
fn a_register_has_one_image() {
    let mut rng = Rng::new(21);
    for _ in 0..1500 {
        let (register, _) = any_pair(&mut rng);
        let bytes = register::encode(&register);
        assert_eq!(read_whole(&bytes), Ok(register.clone()));
        assert_eq!(
            bytes.len(),
            7 + 8 * register.items() + 5 * register.links.len()
        );
        let mut buffer = bytes;
        buffer.extend(random_bytes(&mut rng, 20));
        assert_eq!(read_session(&buffer), Ok(register));
    }
}

#[test]
fn damaged_registers_that_are_taken_are_their_own_image() {
    let mut rng = Rng::new(22);
    let (mut taken, mut refused) = (0, 0);
    for _ in 0..8000 {
        let (register, _) = any_pair(&mut rng);
        let bytes = damaged_register(&mut rng, &register);
        match read_whole(&bytes) {
            Ok(read) => {
                assert_eq!(register::encode(&read), bytes);
                taken += 1;
            }
            Err(refusal) => {
                assert!(refusal.place <= bytes.len());
                refused += 1;
            }
        }
    }
    assert!(
        taken > 300 && refused > 3000,
        "{taken} taken, {refused} refused"
    );
}

#[test]
fn a_tree_comes_back_from_its_message() {
    let mut rng = Rng::new(23);
    let mut with_thresholds = 0;
    for _ in 0..4000 {
        let (_, root) = any_pair(&mut rng);
        let bytes = requirement::encode(&root);
        let read = requirement::read(&bytes).expect("generated trees are good");
        assert_eq!(read.without_places(), root);
        check_places(&bytes, &read);
        with_thresholds += usize::from(!thresholds(&read).is_empty());
    }
    assert!(with_thresholds > 1000, "{with_thresholds}");
}

/// The places kept with each threshold hold just the bytes of its concept.
fn check_places(bytes: &[u8], root: &Node) {
    let list = thresholds(root);
    for (k, threshold) in list.iter().enumerate() {
        let mut inner = Vec::new();
        put_node(&threshold.inner, &mut inner);
        assert_eq!(
            &bytes[threshold.start..threshold.start + threshold.len],
            &inner[..]
        );
        assert_eq!(bytes[threshold.place()], threshold.comparison.byte());
        assert_eq!(
            inner_part(bytes, k as u64),
            Some((threshold.start, threshold.len))
        );
    }
    assert_eq!(inner_part(bytes, list.len() as u64), None);
    assert!(list.windows(2).all(|pair| pair[0].start < pair[1].start));
}

#[test]
fn damaged_requirements_that_are_taken_are_their_own_message() {
    let mut rng = Rng::new(24);
    let (mut taken, mut refused) = (0, 0);
    for _ in 0..20_000 {
        let (_, root) = gen::small_pair(&mut rng);
        let bytes = damaged_requirement(&mut rng, &root);
        match requirement::read(&bytes) {
            Ok(read) => {
                assert_eq!(requirement::encode(&read), bytes);
                check_places(&bytes, &read);
                assert!(written(&read).len() <= 64 && thresholds(&read).len() <= 16);
                taken += 1;
            }
            Err(refusal) => {
                assert!(refusal.place <= bytes.len());
                assert_eq!(inner_part(&bytes, 0), None);
                refused += 1;
            }
        }
    }
    assert!(
        taken > 2000 && refused > 5000,
        "{taken} taken, {refused} refused"
    );
}

/// Bytes from the place on that a refusal may depend on. The bytes of a field
/// that does not fit play no part, but those of an inner length do. The size
/// of 14 hangs on a whole concept, so nothing behind it is changed.
fn decisive(refusal: Refusal, len: usize) -> usize {
    match refusal.number {
        2 | 3 => 3,
        8 | 12 => 0,
        7 | 11 | 13 => 1,
        1 | 4 | 5 | 23 => 2,
        24 | 25 => 4,
        6 => 5,
        9 | 10 => 10,
        _ => len,
    }
}

/// Everything behind the fault is scrambled: the refusal stays.
fn same_after_scrambling(
    rng: &mut Rng,
    bytes: &[u8],
    refusal: Refusal,
    read: impl Fn(&[u8]) -> Option<Refusal>,
) {
    let from = refusal.place + decisive(refusal, bytes.len());
    let mut scrambled = bytes.to_vec();
    for byte in scrambled.iter_mut().skip(from.max(3)) {
        *byte = rng.word() as u8;
    }
    assert_eq!(read(&scrambled), Some(refusal));
}

#[test]
fn what_lies_behind_the_first_fault_does_not_matter() {
    let mut rng = Rng::new(25);
    let mut tried = 0;
    for _ in 0..8000 {
        let (register, root) = gen::small_pair(&mut rng);
        let bytes = damaged_register(&mut rng, &register);
        if let Err(refusal) = read_whole(&bytes) {
            same_after_scrambling(&mut rng, &bytes, refusal, |bytes| read_whole(bytes).err());
            tried += 1;
        }
        let bytes = damaged_requirement(&mut rng, &root);
        if let Err(refusal) = requirement::read(&bytes) {
            same_after_scrambling(&mut rng, &bytes, refusal, |bytes| {
                requirement::read(bytes).err()
            });
            tried += 1;
        }
    }
    assert!(tried > 5000, "{tried}");
}

#[test]
fn a_cut_message_is_refused_at_the_field_that_was_cut() {
    // With the head mended after the cut, and no other fault, number 1 stands
    // at the last field that begins at or before the cut, or at the inner
    // length of the concept that was cut.
    let mut rng = Rng::new(26);
    for _ in 0..300 {
        let (_, root) = gen::small_pair(&mut rng);
        let whole = requirement::encode(&root);
        let layout = gen::damage::layout(&root);
        let inner_spans: Vec<(usize, usize)> = thresholds(&requirement::read(&whole).unwrap())
            .iter()
            .map(|threshold| (threshold.start, threshold.start + threshold.len))
            .collect();
        for cut in 3..whole.len() {
            let mut bytes = whole[..cut].to_vec();
            gen::damage::mend_head(&mut bytes);
            let mut place = layout
                .iter()
                .map(|(_, place)| *place)
                .take_while(|place| *place <= cut)
                .last()
                .unwrap();
            for (start, end) in &inner_spans {
                if cut >= *start && cut < *end {
                    place = start - 2;
                }
            }
            assert_eq!(
                requirement::read(&bytes),
                Err(Refusal::requirement(1, place))
            );
        }
    }
}

#[test]
fn nothing_panics() {
    use second::degree::{degree, margin};
    use second::listing::listing;
    use second::member::member;
    let mut rng = Rng::new(27);
    let mut answered = 0;
    for _ in 0..3600 {
        let (register, requirement) = any_pair_bytes(&mut rng);
        let item = if rng.chance(4) {
            rng.word()
        } else {
            rng.below(6)
        };
        let room = rng.between(0, 70);
        let one = degree(&register, &requirement, item, room);
        let two = member(&register, &requirement, item, room);
        let three = margin(&register, &requirement, item, rng.below(5), rng.below(1003));
        answered +=
            usize::from(one.is_ok()) + usize::from(two.is_ok()) + usize::from(three.is_ok());
        if rng.chance(8) {
            assert!(listing(&[register, requirement].concat()).ends_with(b"\n"));
        }
    }
    assert!(answered > 1000, "{answered}");
}
