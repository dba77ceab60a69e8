//! `#[derive(Reflect)]` that derives nothing.

use proc_macro::TokenStream;

#[proc_macro_derive(Reflect, attributes(reflect))]
pub fn reflect(_item: TokenStream) -> TokenStream {
    TokenStream::new()
}
