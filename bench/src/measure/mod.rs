// The tables.
pub mod catalogue;
mod in_sqlite;
pub mod judge;
pub mod shelves;
