//! Stands in for `thiserror`: the derive is taken and makes nothing, since errors are compared by their case and never printed.
use proc_macro::TokenStream;

#[proc_macro_derive(Error, attributes(error))]
pub fn error(_: TokenStream) -> TokenStream {
    TokenStream::new()
}
