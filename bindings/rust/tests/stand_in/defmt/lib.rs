//! Stands in for the crate `defmt` if there is no registry. It has the derive, which records that it was used.
extern crate proc_macro;

use proc_macro::{TokenStream, TokenTree};

#[proc_macro_derive(Format)]
pub fn derive_format(item: TokenStream) -> TokenStream {
    let mut words = item.into_iter().skip_while(|word| {
        !matches!(word, TokenTree::Ident(ident) if ["struct", "enum"].contains(&ident.to_string().as_str()))
    });
    let name = words.nth(1).expect("a type's name");
    format!("impl {name} {{ #[doc(hidden)] pub const HAS_FORMAT: bool = true; }}").parse().expect("an impl")
}
