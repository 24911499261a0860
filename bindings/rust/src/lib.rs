//! Svelgandur from Rust: to what degree a clock board meets a written
//! requirement, as an exact fraction, and sessions of trial edits.
//!
//! A register and a requirement are bytes, as document 01 lays them out;
//! `svelgandur-text` (tools/text) writes them from plain text, and
//! [`Requirement`] builds a requirement node by node. Nothing here works
//! anything out but the lowest terms and the order of a [`List`]: each function
//! lends the proved library what it was handed, and gives its four numbers a
//! type. Which items a list leaves out is read off the register's names.
//!
//! ```
//! use svelgandur::{degree, list, Place, Session, Fact, WITHDRAWN};
//!
//! // Three items; 0 is linked to 1 under role 0 and to 2 under role 1.
//! let register = [
//!     1, 0, 0x26, 0, 3, // version, length, items
//!     0, 0, 0, 0, 0, 0, 0, 0x0A, // item 0: names 1 and 3
//!     0, 0, 0, 0, 0, 0, 0, 0x02, // item 1: name 1
//!     0, 0, 0, 0, 0, 0, 0, 0x04, // item 2: name 2
//!     0, 2, 0, 0, 0, 0, 1, 0, 0, 1, 0, 2, // two links
//! ];
//! // Names 1 and 2, and under role 0 something with name 1.
//! let requirement = [
//!     1, 0, 0x15, 0, 0, 0, 0, 0, 0, 0, 6, 0, 1, 0, 0, 0, 0, 0, 0, 0, 0, 2, 0, 0,
//! ];
//! let answer = degree(&register, &requirement, 0)?;
//! assert_eq!((answer.num, answer.den), (2, 3));
//! assert_eq!(answer.map, [Place::Item(0), Place::Item(1)]);
//!
//! // All items at once, those that meet most of it first.
//! let all = list(&register, &requirement)?;
//! let told = all.by_degree().map(|(item, degree)| format!("{item}: {degree}"));
//! assert_eq!(told.collect::<Vec<_>>(), ["0: 2/3", "1: 1/3", "2: 1/3"]);
//!
//! // What if item 0 had name 2 as well?
//! let mut session = Session::open(&register)?;
//! session.add(Fact::Name { item: 0, name: 2 })?;
//! let answer = session.degree(&requirement, 0)?;
//! assert_eq!((answer.num, answer.den), (1, 1));
//! session.undo()?;
//! assert_eq!(session.image(), register);
//!
//! // And if item 1 were out for repair? Nothing goes there, and it has no degree.
//! session.add(Fact::Name { item: 1, name: WITHDRAWN })?;
//! let answer = session.degree(&requirement, 0)?;
//! assert_eq!((answer.num, answer.den), (1, 3));
//! assert_eq!(answer.map, [Place::Item(0), Place::Unmapped]);
//! assert_eq!(session.degree(&requirement, 1).unwrap_err().number, 26);
//! # Ok::<(), svelgandur::Refusal>(())
//! ```
//!
//! | Module | What it is |
//! |---|---|
//! | `calls` | the calls of include/svelgandur.h; the only unsafe code |
//! | `refusal` | a refusal, and a sentence for each number |
//! | `answer` | what the calls answer, as types |
//! | `ask` | the questions: reading, degree, margin, yes or no |
//! | `list` | the whole list: all items at once |
//! | `requirement` | requirements built node by node, and their messages |
//! | `session` | trial edits with undo |

#![deny(unsafe_code)]

mod answer;
mod ask;
mod calls;
mod list;
mod refusal;
mod requirement;
mod session;

pub use answer::{Degree, Margin, Place, RegisterCounts, RequirementCounts, Verdict};
pub use ask::{
    degree, degree_into, inner_part, margin, member, member_into, read_register, read_requirement,
    WITHDRAWN,
};
pub use list::{list, list_into, Fraction, List, LONGEST_TABLE};
pub use refusal::{Refusal, Side};
pub use requirement::{Comparison, Concept, Requirement, LONGEST_MESSAGE};
pub use session::{Fact, Session, LARGEST_IMAGE, MOST_STEPS};
