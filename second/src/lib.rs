//! The second program of Herringcart: document 01's rules written again, with
//! document 02's requests, from the documents and their readings alone, as the judge
//! of the first.

// The rules, in the document's order.
pub mod words;

pub mod expressions;

pub mod check;

pub mod state;

pub mod lists;

pub mod events;

pub mod step;

pub mod play;

pub mod panel;

pub mod hold;

pub mod listing;

pub mod buslog;

pub mod supplier;

pub mod program;

pub mod listing_run;

pub mod buslog_run;

// What the rules are tried with.
pub mod cases;
pub mod stream;
pub mod testing;

pub use buslog::{Converted, Cursor, convert};
pub use check::{Check, check};
pub use hold::{Held, Whose, hold};
pub use listing::{Listed, Read, list, read};
pub use panel::{Panel, panel};
pub use play::{Played, play};
pub use state::{check_state, fresh};
pub use step::{Stepped, step};
