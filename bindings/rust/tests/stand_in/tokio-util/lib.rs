//! Stands in for the crate `tokio-util` if Debian's package isn't installed. cargo asks for this crate, but nothing
//! calls it.
