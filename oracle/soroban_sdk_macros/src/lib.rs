//! The two attributes that the original's text carries. Each returns its input: the harness calls
//! the contract's functions as plain Rust, so no entry points are made from them.

use proc_macro::TokenStream;

#[proc_macro_attribute]
pub fn contract(_arguments: TokenStream, item: TokenStream) -> TokenStream {
    item
}

#[proc_macro_attribute]
pub fn contractimpl(_arguments: TokenStream, item: TokenStream) -> TokenStream {
    item
}
