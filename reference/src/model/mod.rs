//! A model of documents 01 and 02, written from their text and as plainly as it reads (`lent`, the host's calls over bytes, from lomkhvide.h):
//! no part of it looks at the code of the engine or of the Rust. Where the Rust has no answer (damaged records, broken memory,
//! rejects, empty ranges) the engine is held to it. It also says what `listing` prints on the inputs that are checked in.

pub mod calendar;
pub mod committee;
pub mod feed;
pub mod finality;
pub mod index;
pub mod lent;
pub mod listing;
pub mod loading;
pub mod mistake;
pub mod record;
pub mod ring;
pub mod slip;
pub mod sorted;
pub mod stakes_file;
pub mod store;
pub mod table;
pub mod writing;
