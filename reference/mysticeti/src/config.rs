//! Stand-in: nothing is read from or written to files.

pub trait ImportExport {}
