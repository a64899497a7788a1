//! Stands in for the crate `bytes` if Debian's package isn't installed. cargo asks for this crate, but nothing calls
//! it.
