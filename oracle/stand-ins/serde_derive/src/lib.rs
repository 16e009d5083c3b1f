//! Stand-in for `serde_derive`: structs with named fields and enums, lifetimes as the only
//! generics, and the one attribute `serialize_with`.

use proc_macro::TokenStream;

mod generate;
mod parse;

#[proc_macro_derive(Serialize, attributes(serde))]
pub fn derive_serialize(input: TokenStream) -> TokenStream {
    generate::serialize(&parse::item(input)).parse().expect("generated tokens")
}

#[proc_macro_derive(Deserialize, attributes(serde))]
pub fn derive_deserialize(input: TokenStream) -> TokenStream {
    generate::deserialize(&parse::item(input)).parse().expect("generated tokens")
}
