//! How much of the stack each call uses, at most, over the costliest inputs
//! and many others. Fails above 64 KiB, and for a session's calls above 2 KiB:
//! a kiosk's stack is small, and no call of a session has a second list of links.

use std::process::ExitCode;

use compare::library;
use compare::painted::Stack;
use compare::worst::{
    all_linked, broom, bushy, chain, chain_to, comb, deep_halves, fans, halves, late, late_halves,
    late_to, sixteen_on_the_last, sixteen_thresholds, triplets, wide, with_withdrawn,
};
use second::gen::{any_pair_bytes, Rng};
use second::register;
use second::requirement::{self, Node};
use second::writing::lists;

const MOST: usize = 64 * 1024;
/// What a session's call may use, with the reading of the image that it begins
/// with. The links of the largest image take ten times as much.
const SESSION: usize = 2 * 1024;

/// What a call is asked of: an image, a message, and the lists of a message that
/// is good.
struct Input {
    image: Vec<u8>,
    message: Vec<u8>,
    lists: [Vec<u64>; 3],
}

impl Input {
    fn new(image: Vec<u8>, message: Vec<u8>) -> Input {
        let lists = requirement::read(&message).map(|root| lists(&root));
        Input {
            image,
            message,
            lists: lists.unwrap_or_default(),
        }
    }
}

/// The costliest pairs, and others.
fn inputs() -> Vec<Input> {
    let linked = all_linked(|item| item as u64);
    // Without withdrawn items and with some: the one goes everywhere, and in the
    // other links end where nothing is judged.
    let images = [
        fans(),
        with_withdrawn(fans(), 10),
        with_withdrawn(linked.clone(), 3),
        linked,
    ]
    .map(|register| register::encode(&register));
    let trees = [
        bushy(),
        comb(),
        chain(|depth| depth as u64 & 7),
        wide(),
        triplets(),
        broom(),
        late(),
        halves(),
        late_halves(),
        deep_halves(),
    ];
    let mut roots: Vec<Node> = trees.to_vec();
    for outer in &trees {
        for inner in &trees {
            roots.push(sixteen_thresholds(outer.clone(), inner));
            roots.push(sixteen_on_the_last(outer.clone(), inner));
        }
    }
    // One deeper than is allowed, which a reader comes to see.
    for too_deep in [chain_to(17, |_| 0), late_to(17)] {
        roots.push(sixteen_on_the_last(chain(|_| 0), &too_deep));
        roots.push(sixteen_on_the_last(late(), &too_deep));
        roots.push(too_deep);
    }
    let mut list = Vec::new();
    for root in &roots {
        let message = requirement::encode(root);
        for image in &images {
            list.push(Input::new(image.clone(), message.clone()));
        }
    }
    let mut rng = Rng::new(1);
    for _ in 0..2000 {
        let (image, message) = any_pair_bytes(&mut rng);
        list.push(Input::new(image, message));
    }
    list
}

/// An item that every register has or should have.
const ITEM: u64 = 0;

/// What the calls are lent beside an input and its buffer: long enough for all.
struct Lent {
    log: [u64; 64],
    map: [u16; 64],
    table: Vec<u32>,
}

/// Each call with what it does to one input.
type Work = fn(&Input, &mut [u8], &mut Lent);

const CALLS: [(&str, usize, Work); 13] = [
    ("read_register", MOST, |input, _, _| {
        library::read_register(&input.image, 0);
    }),
    ("read_requirement", MOST, |input, _, _| {
        library::read_requirement(&input.message);
    }),
    ("inner_part", MOST, |input, _, _| {
        library::inner_part(&input.message, 15);
    }),
    ("write_requirement", MOST, |input, buffer, _| {
        let [nodes, thresholds, inner] = &input.lists;
        library::write_requirement([nodes, thresholds, inner], buffer);
    }),
    ("degree", MOST, |input, _, lent| {
        library::degree(&input.image, &input.message, ITEM, &mut lent.map);
    }),
    ("margin", MOST, |input, _, _| {
        library::margin(&input.image, &input.message, ITEM, 2, 3);
    }),
    ("member", MOST, |input, _, lent| {
        library::member(&input.image, &input.message, ITEM, &mut lent.map);
    }),
    ("list", MOST, |input, _, lent| {
        library::list(&input.image, &input.message, &mut lent.table);
    }),
    ("open", SESSION, |_, buffer, _| {
        library::open(buffer);
    }),
    ("edit_name", SESSION, |_, buffer, lent| {
        library::edit_name(buffer, &mut lent.log, 0, 1, ITEM, 63);
    }),
    ("edit_link", SESSION, |_, buffer, lent| {
        library::edit_link(buffer, &mut lent.log, 0, 0, [ITEM, 0, 0]);
        library::edit_link(buffer, &mut lent.log, 1, 1, [ITEM, 0, 0]);
    }),
    ("undo", SESSION, |_, buffer, lent| {
        // The link of item 0 under role 0 to itself: taken away, and put back.
        for step in [2, 3] {
            lent.log[0] = step;
            library::undo(buffer, &lent.log, 1);
        }
    }),
    ("keep", SESSION, |_, buffer, lent| {
        library::keep(buffer, &lent.log, 64);
    }),
];

/// Runs some work on a stack, and says how many bytes of it were used.
type Run<'a> = &'a dyn Fn(&mut dyn FnMut()) -> usize;

fn main() -> ExitCode {
    let inputs = inputs();
    let stack = Stack::new(16 * MOST);
    // A thread's own, and that of what makes the calls here.
    let nothing = stack.used(|| {
        std::hint::black_box(library::read_register(&[], 0));
    });
    let mut too_much = false;
    let mut held = |name: &str, bound: usize, used: &dyn Fn(Run) -> usize| {
        let most = used(&|work| stack.used(work)).saturating_sub(nothing);
        println!("stack: svelgandur_{name}: {most} bytes");
        if most > bound {
            eprintln!("stack: svelgandur_{name}: more than {bound} bytes");
            too_much = true;
        } else {
            // No more is there, also not of what a call leaves unwritten.
            used(&|work| {
                stack.within(bound, work);
                0
            });
        }
    };
    for (name, bound, work) in CALLS {
        held(name, bound, &|run| used(run, work, &inputs));
    }
    let turns = turns();
    held("edit_link at 4,096 links", SESSION, &|run| {
        edits(run, &turns)
    });
    held("undo at 4,096 links", SESSION, &|run| undos(run, &turns));
    match too_much {
        true => ExitCode::FAILURE,
        false => ExitCode::SUCCESS,
    }
}

/// The most that a call uses over all inputs, a thread's own among it.
fn used(run: Run, work: Work, inputs: &[Input]) -> usize {
    let some = inputs.chunks(40).map(|some| {
        let mut prepared: Vec<_> = some
            .iter()
            .map(|input| {
                let mut buffer = input.image.clone();
                buffer.extend([0; 5]);
                (input, buffer)
            })
            .collect();
        let mut lent = Lent {
            log: [0; 64],
            map: [0; 64],
            table: vec![0; 64 * 512],
        };
        run(&mut || {
            for (input, buffer) in &mut prepared {
                work(input, buffer, &mut lent);
            }
        })
    });
    some.max().unwrap_or(0)
}

/// A link taken out of 4,096, or put in as the last of so many: the buffer
/// before and after.
struct Turn {
    link: [u64; 3],
    adds: u64,
    before: Vec<u8>,
    after: Vec<u8>,
}

/// Both for the link before all others, the one in the middle and the one behind
/// all others: all, half and none of the links move.
fn turns() -> Vec<Turn> {
    let full = fans();
    let all = register::encode(&full);
    let ends = [0, full.links.len() / 2, full.links.len() - 1];
    let of = |at: usize| {
        let mut fewer = full.clone();
        let (from, role, to) = fewer.links.remove(at);
        let mut without = register::encode(&fewer);
        without.extend([0; 5]);
        [(0, &all, &without), (1, &without, &all)].map(|(adds, before, after)| Turn {
            link: [from.into(), role.into(), to.into()],
            adds,
            before: before.clone(),
            after: after.clone(),
        })
    };
    ends.into_iter().flat_map(of).collect()
}

/// The most that an edit uses over these turns, each of which it must make.
fn edits(run: Run, turns: &[Turn]) -> usize {
    let each = turns.iter().map(|turn| {
        let (mut buffer, mut log) = (turn.before.clone(), [0; 64]);
        let mut answer = [0; 4];
        let used = run(&mut || {
            answer = library::edit_link(&mut buffer, &mut log, 0, turn.adds, turn.link);
        });
        assert_eq!(answer, [1, 1, 0, 0]);
        assert!(buffer == turn.after, "the link did not come or go");
        used
    });
    each.max().unwrap_or(0)
}

/// The most that the undo of such an edit uses, which must turn it back.
fn undos(run: Run, turns: &[Turn]) -> usize {
    let each = turns.iter().map(|turn| {
        let (mut buffer, mut log) = (turn.before.clone(), [0; 64]);
        library::edit_link(&mut buffer, &mut log, 0, turn.adds, turn.link);
        let mut answer = [0; 4];
        let used = run(&mut || answer = library::undo(&mut buffer, &log, 1));
        assert_eq!(answer, [1, 0, 0, 0]);
        assert!(buffer == turn.before, "the edit was not turned back");
        used
    });
    each.max().unwrap_or(0)
}
