//! Stand-in for `bytemuck`: its derives, which write nothing. The algebra
//! never looks at a number's bytes through it.

use proc_macro::TokenStream;

#[proc_macro_derive(Pod)]
pub fn pod(_item: TokenStream) -> TokenStream {
    TokenStream::new()
}

#[proc_macro_derive(Zeroable)]
pub fn zeroable(_item: TokenStream) -> TokenStream {
    TokenStream::new()
}
