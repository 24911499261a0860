//! The comparison of the proved library with the second program, part by part.
//!
//! | Module | What it is |
//! |---|---|
//! | `library` | the proved library's calls, as the C header declares them |
//! | `header` | holds the header to these declarations |
//! | `fence` | memory that is lent between pages that cannot be touched |
//! | `painted` | how much of the stack some work uses |
//! | `part` | what a part of the comparison is, and what it has met |
//! | `sheet` | document 01's sheet of examples, with its own answers |
//! | `small` | every register and concept that is small enough to list |
//! | `registers` | reading register images |
//! | `requirements` | reading requirement messages, and their inner parts |
//! | `writings` | writing requirement messages |
//! | `worst` | the costliest registers and requirements |
//! | `degrees` | the degree of an item, its map and its margin |
//! | `members` | the yes or no for an item, and its map |
//! | `lists` | the whole list, and its table |
//! | `withdrawn` | withdrawn items, in every question |
//! | `steps` | a step of a session as a number of the log |
//! | `sessions` | open, edit, undo and keep |

pub mod degrees;
pub mod fence;
pub mod header;
pub mod library;
pub mod lists;
pub mod members;
pub mod painted;
pub mod part;
pub mod registers;
pub mod requirements;
pub mod sessions;
pub mod sheet;
pub mod small;
pub mod steps;
pub mod withdrawn;
pub mod worst;
pub mod writings;

use part::Part;

/// A further part is a module of its own and a line here.
pub const PARTS: [Part; 8] = [
    registers::PART,
    requirements::PART,
    writings::PART,
    degrees::PART,
    members::PART,
    lists::PART,
    withdrawn::PART,
    sessions::PART,
];
