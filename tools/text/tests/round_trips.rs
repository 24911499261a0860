//! Bytes to text and back, over the second program's generators: exact for
//! good bytes, and the same place refused for bad ones.

use second::gen::edges::{Q1, R1};
use second::gen::{
    any_pair, concept_edges, damaged_register, damaged_requirement, largest_register, plain,
    random_bytes, register_edges, requirement_edges, with_thresholds, Palette, Rng,
};
use second::{register, requirement, Refusal};
use svelgandur_text::requirement::{COMMON_FACTOR, NO_COMPARISON, P_ABOVE_Q, Q_OUT_OF_RANGE};
use svelgandur_text::{
    register_text, requirement_text, Fault, Register, Requirement, Where, Words,
};

/// Words for some of the numbers: where there is none, the number is shown.
fn some_words() -> Words {
    let mut text = String::new();
    for number in (0..63).step_by(3) {
        text.push_str(&format!("name {number} n{number}\n"));
    }
    for number in (1..32).step_by(2) {
        text.push_str(&format!("role {number} by_{number}\n"));
    }
    Words::of(&text).unwrap()
}

fn register_round(bytes: &[u8], words: &Words) -> Result<(), Fault> {
    let text = register_text::print(&Register::from_bytes(bytes)?, words);
    let again = register_text::parse(&text).expect("a printed text is read");
    assert_eq!(again.to_bytes(), bytes, "{text}");
    assert_eq!(register_text::print(&again, words), text);
    Ok(())
}

fn requirement_round(bytes: &[u8], words: &Words) -> Result<(), Fault> {
    let text = requirement_text::print(&Requirement::from_bytes(bytes)?, words);
    let again = requirement_text::parse(&text).expect("a printed text is read");
    assert_eq!(again.to_bytes(), bytes, "{text}");
    assert_eq!(requirement_text::print(&again, words), text);
    Ok(())
}

/// What a number of the second program is called here, where it has a sentence
/// of its own.
fn sentence(number: u32) -> &'static str {
    match number {
        13 => NO_COMPARISON,
        23 => Q_OUT_OF_RANGE,
        24 => P_ABOVE_Q,
        25 => COMMON_FACTOR,
        _ => "",
    }
}

/// Bytes are taken where the second program takes them, and refused at its
/// place for its reason. The reduced size, number 14, is not looked at here.
fn same_place(ours: Result<(), Fault>, second: Option<Refusal>) {
    match second {
        None => ours.unwrap(),
        Some(refusal) if refusal.number == 14 => {}
        Some(refusal) => {
            let fault = ours.expect_err("the second program refuses");
            assert_eq!(fault.at, Where::Byte(refusal.place), "{refusal}, {fault}");
            let said = sentence(refusal.number);
            assert!(fault.what.contains(said), "{refusal}, {fault}");
        }
    }
}

fn register_same(bytes: &[u8], words: &Words) {
    let second = register::read_whole(bytes).err();
    same_place(register_round(bytes, words), second);
}

fn requirement_same(bytes: &[u8], words: &Words) {
    let second = requirement::read(bytes).err();
    same_place(requirement_round(bytes, words), second);
}

#[test]
fn the_sheet() {
    register_round(&R1, &Words::default()).unwrap();
    requirement_round(&Q1, &Words::default()).unwrap();
}

/// Name 63 by its word and by its number, with the declaration and without: it
/// is written as the word.
#[test]
fn withdrawn() {
    let declared = "name 63 withdrawn\n";
    let shown = "register\nitem 0: 1 withdrawn\nitem 1: withdrawn\n";
    let said = [
        shown.to_string(),
        shown.replace("withdrawn", "63"),
        shown.replacen("item", &format!("{declared}item"), 1),
    ];
    let bytes = [
        1, 0, 20, 0, 2, 128, 0, 0, 0, 0, 0, 0, 2, 128, 0, 0, 0, 0, 0, 0, 0, 0, 0,
    ];
    for text in said {
        let register = register_text::parse(&text).unwrap();
        assert_eq!(register.to_bytes(), bytes);
        for words in [Words::default(), Words::of(&text).unwrap(), some_words()] {
            let printed = register_text::print(&register, &words);
            assert_eq!(printed.matches("withdrawn").count(), 2);
        }
        assert_eq!(register_text::print(&register, &Words::default()), shown);
    }
    let shown = "requirement\nroot: withdrawn\n  > 1/2: 1 withdrawn\n  0: withdrawn\n";
    for text in [shown.to_string(), shown.replace("withdrawn", "63")] {
        let requirement = requirement_text::parse(&text).unwrap();
        assert_eq!(requirement.root.names, 1 << 63);
        let printed = requirement_text::print(&requirement, &Words::default());
        assert_eq!(printed, shown);
    }
}

#[test]
fn generated_pairs() {
    let mut rng = Rng::new(1);
    for words in [Words::default(), some_words()] {
        for _ in 0..600 {
            let (register, root) = any_pair(&mut rng);
            register_round(&register::encode(&register), &words).unwrap();
            requirement_round(&requirement::encode(&root), &words).unwrap();
        }
    }
}

#[test]
fn the_largest() {
    let mut rng = Rng::new(2);
    let words = some_words();
    for _ in 0..10 {
        let palette = Palette::any(&mut rng);
        let large = largest_register(&mut rng, &palette);
        register_round(&register::encode(&large), &words).unwrap();
        let root = with_thresholds(&mut rng, &palette, &large);
        requirement_round(&requirement::encode(&root), &words).unwrap();
        let root = plain(&mut rng, &palette);
        requirement_round(&requirement::encode(&root), &words).unwrap();
    }
}

#[test]
fn edges_and_damage() {
    let words = Words::default();
    for edge in register_edges() {
        register_same(&edge.bytes, &words);
    }
    for edge in requirement_edges().into_iter().chain(concept_edges()) {
        requirement_same(&edge.bytes, &words);
    }
    let mut rng = Rng::new(3);
    for _ in 0..1500 {
        let (register, root) = any_pair(&mut rng);
        register_same(&damaged_register(&mut rng, &register), &words);
        requirement_same(&damaged_requirement(&mut rng, &root), &words);
        let noise = random_bytes(&mut rng, 60);
        register_same(&noise, &words);
        requirement_same(&noise, &words);
    }
}

/// A text with a few characters changed, taken out or put in.
fn scrawled(rng: &mut Rng, text: &str) -> String {
    const SCRAWL: [char; 14] = [
        '0', '1', '9', ' ', ' ', '\n', ':', '/', '<', '=', '#', '-', 'n', 'é',
    ];
    let mut letters: Vec<char> = text.chars().collect();
    for _ in 0..rng.between(1, 3) {
        let at = rng.index(letters.len());
        match rng.below(3) {
            0 => letters[at] = rng.pick(&SCRAWL),
            1 => letters.insert(at, rng.pick(&SCRAWL)),
            _ => drop(letters.remove(at)),
        }
    }
    letters.into_iter().collect()
}

/// Whatever text is taken, its bytes are good ones; and some are taken, some
/// not.
#[test]
fn scrawled_texts() {
    let mut rng = Rng::new(4);
    let words = some_words();
    let mut taken = [0; 2];
    let mut faults = [0; 2];
    for _ in 0..3000 {
        let (register, root) = second::gen::small_pair(&mut rng);
        let register = Register::from_bytes(&register::encode(&register)).unwrap();
        let text = register_text::print(&register, &words);
        match register_text::parse(&scrawled(&mut rng, &text)) {
            Ok(register) => {
                register_round(&register.to_bytes(), &words).unwrap();
                assert!(register::read_whole(&register.to_bytes()).is_ok());
                taken[0] += 1;
            }
            Err(fault) => {
                assert!(matches!(fault.at, Where::Line(1..)));
                faults[0] += 1;
            }
        }
        let root = Requirement::from_bytes(&requirement::encode(&root)).unwrap();
        let text = requirement_text::print(&root, &words);
        match requirement_text::parse(&scrawled(&mut rng, &text)) {
            Ok(root) => {
                requirement_same(&root.to_bytes(), &words);
                taken[1] += 1;
            }
            Err(fault) => {
                assert!(matches!(fault.at, Where::Line(1..)));
                faults[1] += 1;
            }
        }
    }
    assert!(
        taken.iter().chain(&faults).all(|count| *count > 100),
        "{taken:?} {faults:?}"
    );
}
