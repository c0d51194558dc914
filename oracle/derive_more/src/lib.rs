//! Stands in for the crate of the same name, whose `From` some of the cut types derive.
//! It derives nothing: no cut body uses those conversions, and one that did would not compile.

use proc_macro::TokenStream;

#[proc_macro_derive(From, attributes(from))]
pub fn from(_: TokenStream) -> TokenStream {
    TokenStream::new()
}
