//! Stand-in for the original's error macros. They keep the message's template and the text of
//! each hole apart, so that no name inside a message can be taken for a part of it.

use proc_macro::{Delimiter, Group, Ident, TokenStream, TokenTree};

#[proc_macro]
pub fn errinput(input: TokenStream) -> TokenStream {
    refusal("InvalidInput", input)
}

#[proc_macro]
pub fn errdata(input: TokenStream) -> TokenStream {
    refusal("InvalidData", input)
}

fn refusal(kind: &str, input: TokenStream) -> TokenStream {
    let mut parts = split_at_commas(input).into_iter();
    let template = match parts.next().as_deref() {
        Some([TokenTree::Literal(literal)]) => literal.clone(),
        _ => panic!("the message is not one literal"),
    };
    let text = template.to_string();
    let text = text.strip_prefix('"').and_then(|text| text.strip_suffix('"')).expect("a text");
    assert!(!text.contains('\\'), "escapes are not looked for");

    // One `("name", format!("{:spec}", argument)),` for each hole, in order.
    let mut fields = TokenStream::new();
    for hole in holes(text) {
        let (name, spec) = hole.split_once(':').unwrap_or((hole, ""));
        let argument: TokenStream = if name.is_empty() {
            parts.next().expect("an argument for each hole").into_iter().collect()
        } else {
            // The literal's own span makes the name mean what it means where the macro is called.
            TokenTree::Ident(Ident::new(name, template.span())).into()
        };
        let mut call = tokens(&format!("\"{{:{spec}}}\","));
        call.extend(argument);
        let mut field = tokens(&format!("\"{name}\", ::std::format!"));
        field.extend([group(call)]);
        fields.extend([group(field)]);
        fields.extend(tokens(","));
    }
    assert!(parts.next().is_none(), "an argument without a hole");

    let mut words = tokens(&format!("template: \"{text}\", fields: ::std::vec!"));
    words.extend([group(fields)]);
    let mut argument = tokens("crate::error::Words");
    argument.extend([TokenTree::Group(Group::new(Delimiter::Brace, words))]);
    let mut error = tokens(&format!("crate::error::Error::{kind}"));
    error.extend([group(argument)]);
    let mut whole = tokens("::core::convert::Into::into");
    whole.extend([group(error)]);
    whole
}

/// The texts between braces.
fn holes(text: &str) -> Vec<&str> {
    assert!(!text.contains("{{") && !text.contains("}}"), "doubled braces are not looked for");
    text.split('{').skip(1).map(|rest| rest.split_once('}').expect("a closed hole").0).collect()
}

fn split_at_commas(input: TokenStream) -> Vec<Vec<TokenTree>> {
    let mut parts = vec![Vec::new()];
    for token in input {
        match &token {
            TokenTree::Punct(mark) if mark.as_char() == ',' => parts.push(Vec::new()),
            _ => parts.last_mut().unwrap().push(token),
        }
    }
    parts.retain(|part| !part.is_empty());
    parts
}

fn tokens(text: &str) -> TokenStream {
    text.parse().expect("generated tokens")
}

fn group(inner: TokenStream) -> TokenTree {
    TokenTree::Group(Group::new(Delimiter::Parenthesis, inner))
}
