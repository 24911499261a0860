//! Times of the proved library beside those of a good Rust program, in one
//! run. `bench [NAME ..]` prints a line for every measurement, or for those
//! named; `bench once NAME` makes both programs do one of them once, for
//! counting instructions; `bench names` lists them with the calls in them that
//! are counted; `bench input NAME` writes what the listing programs are given.

mod degree;
mod listing;
mod lists;
mod member;
mod message;
mod read;
mod session;

use std::io::Write;
use std::time::Instant;

/// One measurement: the same work by the library and by the good program.
pub struct Work {
    pub name: &'static str,
    /// The library's calls in it, whose instructions are counted; behind a
    /// slash those of the other program, where they are counted too.
    pub calls: &'static str,
    /// What is done.
    pub what: String,
    /// How often the question is put in it: the times are for one of them.
    pub questions: u32,
    /// Sees that both come to the same.
    pub same: Box<dyn Fn()>,
    pub library: Box<dyn Fn()>,
    pub good: Box<dyn Fn()>,
}

/// Rounds, in each of which both programs have their turn.
const ROUNDS: usize = 201;
/// How often each does the work in its turn: as often as fills a turn, once at
/// least and 50 times at most.
const TURN: f64 = 500_000.0;
const MOST_TIMES: f64 = 50.0;

/// A further measurement is a module of its own and a line here.
fn works() -> Vec<Work> {
    let mut works = vec![
        read::largest(),
        read::half(),
        message::longest(),
        message::costly(),
        message::writing(),
    ];
    works.extend(degree::works());
    works.extend(member::works());
    works.extend(lists::works());
    works.extend(session::works());
    works.extend(listing::works());
    works
}

fn main() {
    let words: Vec<String> = std::env::args().skip(1).collect();
    let works = works();
    let named = |names: &[String]| {
        let names = names.to_vec();
        works
            .iter()
            .filter(move |work| names.is_empty() || names.iter().any(|name| name == work.name))
    };
    match words.split_first() {
        Some((first, rest)) if first == "input" => std::io::stdout()
            .write_all(&listing::input(rest.first().map_or("", |name| name)))
            .expect("the input is written"),
        Some((first, _)) if first == "names" => works
            .iter()
            .for_each(|work| println!("{} {}", work.name, work.calls)),
        Some((first, names)) if first == "once" => named(names).for_each(|work| {
            (work.library)();
            (work.good)();
        }),
        _ => named(&words).for_each(measure),
    }
}

/// Prints name, what, both times and their ratio, between bars: the least of
/// all turns, for one question.
fn measure(work: &Work) {
    (work.same)();
    // Warm: what stands in a cache stands there for both.
    let once = turn(&work.library, 1).max(turn(&work.good, 1));
    let times = (TURN / once).clamp(1.0, MOST_TIMES) as u32;
    let (mut library, mut good) = (f64::MAX, f64::MAX);
    for _ in 0..ROUNDS {
        library = library.min(turn(&work.library, times));
        good = good.min(turn(&work.good, times));
    }
    let each = f64::from(work.questions);
    println!(
        "{}|{}|{}|{}|{:.2}",
        work.name,
        work.what,
        told(library / each),
        told(good / each),
        library / good
    );
}

/// Nanoseconds for the work done once, over one turn.
fn turn(work: &dyn Fn(), times: u32) -> f64 {
    let began = Instant::now();
    for _ in 0..times {
        work();
    }
    began.elapsed().as_nanos() as f64 / f64::from(times)
}

/// So many nanoseconds with three digits.
fn told(nanoseconds: f64) -> String {
    let (number, unit) = match nanoseconds {
        n if n >= 1_000_000.0 => (n / 1_000_000.0, "ms"),
        n => (n / 1_000.0, "µs"),
    };
    let digits = match number {
        n if n >= 100.0 => 0,
        n if n >= 10.0 => 1,
        _ => 2,
    };
    format!("{number:.digits$} {unit}")
}
