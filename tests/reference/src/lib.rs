//! The rules, followed by themselves, apart from the library.

pub mod answer;
pub mod choose;
pub mod convert;
pub mod cursor;
pub mod dimacs_reader;
pub mod dimacs_writer;
pub mod fast_choose;
pub mod lists;
pub mod node_file;
pub mod origin;
pub mod per_clause;
pub mod polarity;
pub mod program;
pub mod protocol;
pub mod sat_reader;
pub mod set;
pub mod table;
pub mod tidy;
pub mod totals;
