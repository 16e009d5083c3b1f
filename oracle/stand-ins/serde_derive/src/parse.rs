//! From an item's tokens to the little that the generated code needs.

use std::iter::Peekable;

use proc_macro::{Delimiter, TokenStream, TokenTree, token_stream};

pub struct Item {
    pub name: String,
    /// With its angle brackets; empty if there are none.
    pub generics: String,
    pub body: Body,
}

pub enum Body {
    Struct(Vec<Field>),
    Enum(Vec<Variant>),
}

pub struct Variant {
    pub name: String,
    pub fields: Fields,
}

pub enum Fields {
    None,
    Unnamed(Vec<Field>),
    Named(Vec<Field>),
}

pub struct Field {
    /// Its name, or for an unnamed one a name made from its number.
    pub name: String,
    pub kind: String,
    pub serialize_with: Option<String>,
}

type Tokens = Peekable<token_stream::IntoIter>;

pub fn item(input: TokenStream) -> Item {
    let mut tokens = input.into_iter().peekable();
    attributes(&mut tokens);
    visibility(&mut tokens);
    let keyword = word(&mut tokens);
    let name = word(&mut tokens);
    let mut generics = String::new();
    loop {
        match tokens.next().expect("a body") {
            TokenTree::Group(group) if group.delimiter() == Delimiter::Brace => {
                let inner = group.stream();
                let body = match keyword.as_str() {
                    "struct" => Body::Struct(fields(inner, true)),
                    "enum" => Body::Enum(variants(inner)),
                    other => panic!("{other} {name}: not looked for"),
                };
                return Item { name, generics, body };
            }
            token => generics.push_str(&token.to_string()),
        }
    }
}

fn variants(input: TokenStream) -> Vec<Variant> {
    let mut tokens = input.into_iter().peekable();
    let mut variants = Vec::new();
    while tokens.peek().is_some() {
        attributes(&mut tokens);
        let name = word(&mut tokens);
        let mut inner = Fields::None;
        if let Some(TokenTree::Group(group)) = tokens.peek() {
            inner = match group.delimiter() {
                Delimiter::Brace => Fields::Named(fields(group.stream(), true)),
                _ => Fields::Unnamed(fields(group.stream(), false)),
            };
            tokens.next();
        }
        variants.push(Variant { name, fields: inner });
        let comma = tokens.next();
        assert!(comma.is_none_or(|token| token.to_string() == ","), "a comma between variants");
    }
    variants
}

fn fields(input: TokenStream, named: bool) -> Vec<Field> {
    let mut tokens = input.into_iter().peekable();
    let mut fields = Vec::new();
    while tokens.peek().is_some() {
        let serialize_with = attributes(&mut tokens);
        visibility(&mut tokens);
        let name = if named { word(&mut tokens) } else { format!("field{}", fields.len()) };
        if named {
            assert_eq!(tokens.next().expect("a colon").to_string(), ":");
        }
        fields.push(Field { name, kind: kind(&mut tokens), serialize_with });
    }
    fields
}

/// A field's type: everything up to the comma outside angle brackets.
fn kind(tokens: &mut Tokens) -> String {
    let (mut kind, mut depth) = (String::new(), 0);
    for token in tokens {
        let text = token.to_string();
        match text.as_str() {
            "<" => depth += 1,
            ">" => depth -= 1,
            "," if depth == 0 => break,
            _ => {}
        }
        kind.push_str(&text);
        // A lifetime's mark comes as a token of its own and must stay joined to its name.
        if text != "'" {
            kind.push(' ');
        }
    }
    kind
}

/// Skips attributes; gives the path of a `serialize_with` among them.
fn attributes(tokens: &mut Tokens) -> Option<String> {
    let mut path = None;
    while tokens.peek().is_some_and(|token| token.to_string() == "#") {
        tokens.next();
        let text = tokens.next().expect("an attribute").to_string();
        if text.starts_with("[serde") {
            let (before, rest) = text.split_once('"').expect("a path");
            assert!(before.contains("serialize_with"), "{text}: not looked for");
            path = Some(rest.split_once('"').expect("a path").0.to_owned());
        }
    }
    path
}

fn visibility(tokens: &mut Tokens) {
    if tokens.peek().is_some_and(|token| token.to_string() == "pub") {
        tokens.next();
        if let Some(TokenTree::Group(_)) = tokens.peek() {
            tokens.next();
        }
    }
}

fn word(tokens: &mut Tokens) -> String {
    match tokens.next() {
        Some(TokenTree::Ident(word)) => word.to_string(),
        other => panic!("a name, not {other:?}"),
    }
}
