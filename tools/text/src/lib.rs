//! Registers and requirements as plain text: to their bytes and back.
//!
//! It checks document 01's rules for both forms by itself and uses no code of
//! the library. One rule is left to the library: the reduced size of a
//! concept, at most 60 (its refusal 14).
//!
//! | Module | What it is |
//! |---|---|
//! | `fault` | what is wrong, at which line or byte |
//! | `line` | the lines of a text: comments off, depth counted |
//! | `words` | the words that a text declares for numbers |
//! | `field` | big-endian fields, and the 3-byte head |
//! | `register` | a register, and its bytes |
//! | `register_text` | its text |
//! | `requirement` | a requirement, and its bytes |
//! | `requirement_text` | its text |

#![forbid(unsafe_code)]

pub mod fault;
mod field;
mod line;
pub mod register;
pub mod register_text;
pub mod requirement;
pub mod requirement_text;
pub mod words;

pub use fault::{Fault, Where};
pub use register::Register;
pub use requirement::Requirement;
pub use words::Words;
