//! Exports the crate `jcobs` under the name `cobs`. With these lines in `Cargo.toml`, cargo uses this package for
//! crates that depend on `cobs`:
//!
//! ```toml
//! [patch.crates-io]
//! cobs = { path = "jirompeka/bindings/rust/as-cobs" }
//! ```
//!
//! Cargo uses this package only for crates that depend on `cobs` 0.5, because the package has the version number 0.5.1.
//! It also has the names and signatures of `cobs` 0.5.1.
#![no_std]
#![forbid(unsafe_code)]

pub use jcobs::*;
