//! Practice files, binders of them, what files are written from, lists of the
//! classroom dialect, calls of a host program, files of cases with such calls,
//! calls by two desks, and the two programs that play, write, convert and
//! answer them: the proved library ([`library`], [`host_library`]) and the
//! reference.

pub mod binders;
pub mod case_file;
pub mod damaged;
pub mod desk_lists;
pub mod desk_table;
pub mod dice;
pub mod difference;
pub mod fields;
pub mod host_calls;
pub mod host_library;
pub mod host_table;
pub mod hosted;
pub mod lessons;
pub mod library;
pub mod list_table;
pub mod lists;
pub mod sessions;
pub mod spacings;
pub mod state_text;
pub mod table;
pub mod wide;
