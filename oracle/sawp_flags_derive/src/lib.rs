//! `#[derive(BitFlags)]` for an enum of one-byte flags.

use proc_macro::{TokenStream, TokenTree};

#[proc_macro_derive(BitFlags)]
pub fn bit_flags(item: TokenStream) -> TokenStream {
    let mut tokens = item.into_iter();
    // the name stands after the word `enum`
    tokens
        .find(|t| matches!(t, TokenTree::Ident(word) if word.to_string() == "enum"))
        .expect("BitFlags is for an enum");
    let name = tokens.next().expect("an enum has a name");
    format!("impl ::sawp_flags::Flag for {name} {{ fn bits(self) -> u8 {{ self as u8 }} }}")
        .parse()
        .expect("this is Rust")
}
