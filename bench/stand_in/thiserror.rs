//! Stands in for the crate `thiserror`, so that the measured crate builds without a registry: nothing that is measured
//! prints an error.
extern crate proc_macro;

use proc_macro::TokenStream;

#[proc_macro_derive(Error, attributes(error))]
pub fn derive_error(_item: TokenStream) -> TokenStream {
    TokenStream::new()
}
