//! Sessions against the model: over many random histories the image is that
//! of the facts of the history.

use second::gen::{action, fact, junk_step, medium_register, small_register, Action, Palette, Rng};
use second::model::{Facts, Model};
use second::register::{self, read_session, read_whole};
use second::session::{edit, image, keep, open, undo, Fact, Step};
use second::{Refusal, Side};

/// The number of a refusal, which must be on the call's side at place 0.
fn number(answer: Result<u64, Refusal>) -> Result<u64, u32> {
    answer.map_err(|refusal| {
        assert_eq!((refusal.side, refusal.place), (Side::Call, 0));
        refusal.number
    })
}

#[test]
fn the_image_is_that_of_the_history() {
    let mut rng = Rng::new(31);
    let mut seen = std::collections::BTreeMap::new();
    let mut full_at_64 = 0;
    for _ in 0..400 {
        let palette = Palette::any(&mut rng);
        let register = if rng.chance(4) {
            medium_register(&mut rng, &palette)
        } else {
            small_register(&mut rng, &palette)
        };
        let mut buffer = register::encode(&register);
        buffer.extend((0..rng.between(0, 40)).map(|_| 0xEE));
        let longest = rng.pick(&[6, 80]);
        let unused = Step {
            fact: Fact::Name { item: 9, name: 9 },
            was_there: true,
        };
        let mut log = vec![unused; rng.between(0, longest)];
        assert_eq!(open(&mut buffer), Ok(0));
        let mut count = 0;
        let mut model = Model::open(&register, buffer.len(), log.len());
        for _ in 0..200 {
            let now = read_session(&buffer).unwrap();
            let before = (buffer.clone(), log.clone());
            let (answer, expected) = match action(&mut rng, &palette, &now) {
                Action::Edit { fact, there } => {
                    let was_there = model.facts().holds(fact);
                    let answer = number(edit(&mut buffer, &mut log, count, fact, there));
                    if answer.is_ok() {
                        // One record is written, at the count, and no other.
                        let mut expected_log = before.1.clone();
                        expected_log[count as usize] = Step { fact, was_there };
                        assert_eq!(log, expected_log);
                    }
                    (answer, model.edit(fact, there))
                }
                Action::Undo => {
                    let answer = number(undo(&mut buffer, &log, count));
                    assert_eq!(log, before.1);
                    (answer, model.undo())
                }
                Action::Keep => {
                    let answer = number(keep(&buffer, &log, count));
                    assert_eq!((&buffer, &log), (&before.0, &before.1));
                    model.keep();
                    (answer, Ok(()))
                }
            };
            *seen.entry(expected).or_insert(0) += 1;
            full_at_64 += usize::from(log.len() > 64 && expected == Err(18));
            match expected {
                Ok(()) => {
                    count = answer.expect("the model accepts");
                    assert_eq!(count, model.count());
                }
                Err(number) => {
                    assert_eq!(answer, Err(number));
                    assert_eq!((&buffer, &log), (&before.0, &before.1));
                }
            }
            let expected_image = register::encode(&model.facts().register());
            assert_eq!(&buffer[..expected_image.len()], &expected_image[..]);
            assert!(buffer[expected_image.len()..].iter().all(|byte| *byte == 0));
            assert_eq!(image(&buffer), Ok(&expected_image[..]));
        }
    }
    for outcome in [Ok(()), Err(7), Err(15), Err(18), Err(19), Err(20)] {
        let times = seen.get(&outcome).copied().unwrap_or(0);
        assert!(times > 100, "{outcome:?} came {times} times");
    }
    assert!(full_at_64 > 100, "{full_at_64}");
}

#[test]
fn full_logs_are_played_back_to_the_start() {
    let mut rng = Rng::new(32);
    let mut changes = 0;
    for _ in 0..60 {
        let palette = Palette::any(&mut rng);
        let register = medium_register(&mut rng, &palette);
        let mut buffer = register::encode(&register);
        buffer.extend([0; 5 * 64]);
        let opened = buffer.clone();
        let mut log = vec![Step::UNUSED; 64];
        let mut count = 0;
        let mut images = vec![buffer.clone()];
        while count < 64 {
            let now = read_session(&buffer).unwrap();
            let fact = fact(&mut rng, &palette, &now);
            count = edit(&mut buffer, &mut log, count, fact, rng.chance(2)).unwrap();
            changes += usize::from(Some(&buffer) != images.last());
            images.push(buffer.clone());
        }
        while count > 0 {
            assert_eq!(Some(&buffer), images.pop().as_ref());
            count = undo(&mut buffer, &log, count).unwrap();
        }
        assert_eq!(buffer, opened);
    }
    assert!(changes > 1000, "{changes}");
}

/// A buffer that was not opened, with junk behind its image and a log that no
/// edit wrote: only the rules decide, call by call.
#[test]
fn junk_behind_the_image_and_in_the_log() {
    let mut rng = Rng::new(33);
    let mut seen = std::collections::BTreeMap::new();
    for _ in 0..20_000 {
        let palette = Palette::any(&mut rng);
        let register = small_register(&mut rng, &palette);
        let image = register::encode(&register);
        let tail: Vec<u8> = (0..rng.between(0, 12)).map(|_| rng.word() as u8).collect();
        let mut buffer = [image.clone(), tail.clone()].concat();
        let log: Vec<Step> = (0..rng.between(0, 3))
            .map(|_| junk_step(&mut rng, &palette, &register))
            .collect();
        let count = rng.below(log.len() as u64 + 2);

        let expected = expected_undo(&register, &tail, &log, count);
        let answer = number(undo(&mut buffer, &log, count));
        *seen.entry(answer.map(|_| ())).or_insert(0) += 1;
        match expected {
            Err(number) => {
                assert_eq!(answer, Err(number));
                assert_eq!(buffer, [image, tail].concat());
            }
            Ok(expected_buffer) => {
                assert_eq!(answer, Ok(count - 1));
                assert_eq!(buffer, expected_buffer);
            }
        }
    }
    for outcome in [Ok(()), Err(17), Err(19), Err(20)] {
        let times = seen.get(&outcome).copied().unwrap_or(0);
        assert!(times > 100, "{outcome:?} came {times} times");
    }
}

/// The buffer after an undo, by the model's facts: a link added takes the
/// first 5 bytes of the tail, one taken away leaves 5 zeros before it.
fn expected_undo(
    register: &register::Register,
    tail: &[u8],
    log: &[Step],
    count: u64,
) -> Result<Vec<u8>, u32> {
    if count as usize > log.len() {
        return Err(17);
    }
    if count == 0 {
        return Err(19);
    }
    let step = log[count as usize - 1];
    let items = register.items() as u64;
    let good = match step.fact {
        Fact::Name { item, name } => item < items && name <= 63,
        Fact::Link { from, role, to } => from < items && role <= 31 && to < items,
    };
    if !good {
        return Err(17);
    }
    let mut facts = Facts::of(register);
    let before = facts.links();
    facts.set(step.fact, step.was_there);
    let mut expected = register::encode(&facts.register());
    if facts.links() > before {
        if tail.len() < 5 {
            return Err(20);
        }
        expected.extend_from_slice(&tail[5..]);
    } else {
        expected.extend(vec![0; 5 * (before - facts.links())]);
        expected.extend_from_slice(tail);
    }
    Ok(expected)
}

#[test]
fn edits_leave_further_bytes_as_they_are() {
    let mut rng = Rng::new(34);
    let (mut grown, mut shrunk) = (0, 0);
    for _ in 0..5000 {
        let palette = Palette::any(&mut rng);
        let register = small_register(&mut rng, &palette);
        let image = register::encode(&register);
        let tail: Vec<u8> = (0..rng.between(5, 12)).map(|_| rng.word() as u8).collect();
        let mut buffer = [image, tail.clone()].concat();
        let mut log = vec![Step::UNUSED; 1];
        let fact = fact(&mut rng, &palette, &register);
        let there = rng.chance(2);
        let mut facts = Facts::of(&register);
        let was_there = facts.holds(fact);
        facts.set(fact, there);
        assert_eq!(edit(&mut buffer, &mut log, 0, fact, there), Ok(1));
        assert_eq!(log[0], Step { fact, was_there });
        let new_image = register::encode(&facts.register());
        let behind = &buffer[new_image.len()..];
        assert_eq!(&buffer[..new_image.len()], &new_image[..]);
        if matches!(fact, Fact::Link { .. }) && there && !was_there {
            assert_eq!(behind, &tail[5..]);
            grown += 1;
        } else if matches!(fact, Fact::Link { .. }) && !there && was_there {
            assert_eq!(behind, [&[0; 5][..], &tail[..]].concat());
            shrunk += 1;
        } else {
            assert_eq!(behind, &tail[..]);
        }
    }
    assert!(
        grown > 300 && shrunk > 300,
        "{grown} grown, {shrunk} shrunk"
    );
}

#[test]
fn opening_zeros_what_lies_behind() {
    let mut rng = Rng::new(35);
    for _ in 0..500 {
        let palette = Palette::any(&mut rng);
        let register = small_register(&mut rng, &palette);
        let image = register::encode(&register);
        let extra = rng.between(0, 30);
        let mut buffer = image.clone();
        buffer.extend((0..extra).map(|_| 0xEE));
        assert_eq!(open(&mut buffer), Ok(0));
        assert_eq!(buffer[..image.len()], image[..]);
        assert_eq!(buffer[image.len()..], vec![0; extra][..]);
        // A refused opening leaves everything.
        let mut bad = buffer.clone();
        bad[0] = 2;
        bad.push(0xEE);
        let before = bad.clone();
        assert_eq!(open(&mut bad), Err(Refusal::register(2, 0)));
        assert_eq!(bad, before);
    }
}

#[test]
fn the_model_forgets_by_playing_again() {
    // The model itself, by hand: add, take away, undo both, keep.
    let register = register::Register {
        names: vec![0],
        links: vec![],
    };
    let fact = Fact::Link {
        from: 0,
        role: 0,
        to: 0,
    };
    let mut model = Model::open(&register, 20, 3);
    assert_eq!(model.edit(fact, true), Ok(()));
    assert!(model.facts().holds(fact));
    assert_eq!(
        model.edit(
            Fact::Link {
                from: 0,
                role: 1,
                to: 0
            },
            true
        ),
        Err(20)
    );
    assert_eq!(model.edit(fact, false), Ok(()));
    assert_eq!(model.edit(fact, false), Ok(()));
    assert_eq!(model.edit(fact, false), Err(18));
    assert_eq!(model.undo(), Ok(()));
    assert!(!model.facts().holds(fact));
    assert_eq!(model.undo(), Ok(()));
    assert!(model.facts().holds(fact));
    assert_eq!(model.count(), 1);
    model.keep();
    assert_eq!(model.count(), 0);
    assert_eq!(model.undo(), Err(19));
    assert!(model.facts().holds(fact));
}

#[test]
fn the_image_in_a_session_is_a_whole_register() {
    let mut rng = Rng::new(36);
    for _ in 0..500 {
        let palette = Palette::any(&mut rng);
        let register = small_register(&mut rng, &palette);
        let mut buffer = register::encode(&register);
        buffer.extend([7; 6]);
        assert_eq!(read_whole(&buffer).err(), Some(Refusal::register(3, 1)));
        assert_eq!(read_whole(image(&buffer).unwrap()), Ok(register));
    }
}
