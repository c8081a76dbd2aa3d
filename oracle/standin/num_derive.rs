//! Stand-in for the crate `num_derive`: `FromPrimitive` for an enum of plain names,
//! each with or without its number.

extern crate proc_macro;
use proc_macro::{TokenStream, TokenTree};

#[proc_macro_derive(FromPrimitive)]
pub fn from_primitive(item: TokenStream) -> TokenStream {
    let mut tokens = item.into_iter().skip_while(|t| t.to_string() != "enum").skip(1);
    let name = tokens.next().expect("a name");
    let Some(TokenTree::Group(body)) = tokens.next() else {
        panic!("an enum without parameters");
    };
    // The first name of each part between commas is the variant's.
    let mut arms = String::new();
    let mut opens = true;
    for token in body.stream() {
        match token {
            TokenTree::Ident(variant) if opens => {
                arms += &format!("n if n == {name}::{variant} as u64 => Some({name}::{variant}),");
                opens = false;
            }
            TokenTree::Punct(mark) if mark.as_char() == ',' => opens = true,
            _ => {}
        }
    }
    format!(
        "impl ::num_traits::FromPrimitive for {name} {{
            fn from_u64(n: u64) -> Option<Self> {{ match n {{ {arms} _ => None }} }}
        }}"
    )
    .parse()
    .expect("a well-formed impl")
}
