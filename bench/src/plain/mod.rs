// The unverified programs of the same jobs.
pub mod catalogue;
mod hash;
pub mod judge;
pub mod store;
