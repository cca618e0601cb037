//! Stands for thiserror: the derive is accepted and makes nothing.

extern crate proc_macro;

#[proc_macro_derive(Error, attributes(error, from, source))]
pub fn error(_: proc_macro::TokenStream) -> proc_macro::TokenStream {
    proc_macro::TokenStream::new()
}
