//! The keeper beside plain Rust: see `bench/run`.

#[cfg(archive)]
mod exports;
#[cfg(archive)]
pub mod keeper;
pub mod plain;
pub mod side;
pub mod timing;
pub mod work;
