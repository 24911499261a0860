//! Reading register images. The work is one pass over the bytes: half of them
//! take half the time.

use std::hint::black_box;
use std::rc::Rc;

use compare::library;
use good::calls;
use second::gen::registers::register_of;
use second::gen::{Palette, Rng};
use second::register::encode;

use crate::Work;

/// The largest image: 512 items and 4,096 links.
pub fn largest() -> Work {
    let what = "the largest image: 512 items, 4,096 links, 24,583 bytes";
    reading("read", what, 512, 4096)
}

/// Half as many of both.
pub fn half() -> Work {
    let what = "256 items, 2,048 links, 12,295 bytes";
    reading("read-half", what, 256, 2048)
}

/// Reading an image of so many items and links, all roles among them and all
/// names but that of a withdrawn item.
fn reading(name: &'static str, what: &str, items: usize, links: usize) -> Work {
    let palette = Palette {
        names: (0..64).collect(),
        roles: (0..32).collect(),
        withdrawn: 0,
    };
    let image: Rc<[u8]> = encode(&register_of(&mut Rng::new(1), &palette, items, links)).into();
    let (one, other) = (image.clone(), image.clone());
    Work {
        name,
        calls: "svelgandur_read_register",
        what: what.to_string(),
        questions: 1,
        same: Box::new(move || {
            let good = calls::read_register(&image, 0);
            assert_eq!(good, [1, items as u64, links as u64, 0]);
            assert_eq!(library::read_register(&image, 0), good);
        }),
        library: Box::new(move || {
            black_box(library::read_register(black_box(&one), 0));
        }),
        good: Box::new(move || {
            black_box(calls::read_register(black_box(&other), 0));
        }),
    }
}
