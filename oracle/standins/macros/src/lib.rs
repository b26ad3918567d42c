//! The macros of the stand-ins; each is passed on by the crate it belongs to.

use proc_macro::TokenStream;

mod serialize;
mod statemachine;

#[proc_macro]
pub fn statemachine(block: TokenStream) -> TokenStream {
    statemachine::expand(block)
}

#[proc_macro_derive(Serialize)]
pub fn serialize(item: TokenStream) -> TokenStream {
    serialize::expand(item)
}

/// Nothing here reads a value back: this derive and the next two are empty.
#[proc_macro_derive(Deserialize)]
pub fn deserialize(_: TokenStream) -> TokenStream {
    TokenStream::new()
}

#[proc_macro_derive(Encode)]
pub fn encode(_: TokenStream) -> TokenStream {
    TokenStream::new()
}

#[proc_macro_derive(Decode)]
pub fn decode(_: TokenStream) -> TokenStream {
    TokenStream::new()
}
