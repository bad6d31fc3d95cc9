//! Stand-in for the crate thiserror: `#[derive(Error)]` for an enum whose cases carry nothing.
//! Each case is shown as the text in its `#[error("..")]`.

use proc_macro::{Delimiter, Group, TokenStream, TokenTree};

/// Gives the enum `Display` from its texts, and `std::error::Error`.
#[proc_macro_derive(Error, attributes(error))]
pub fn derive_error(input: TokenStream) -> TokenStream {
    let (name, body) = enum_parts(input);
    let arms: String =
        cases(body).iter().map(|(case, text)| format!("{name}::{case} => {text},")).collect();
    let code = format!(
        "impl std::fmt::Display for {name} {{
            fn fmt(&self, f: &mut std::fmt::Formatter<'_>) -> std::fmt::Result {{
                f.write_str(match self {{ {arms} }})
            }}
        }}
        impl std::error::Error for {name} {{}}"
    );
    code.parse().expect("the generated code is Rust")
}

/// The name of the enum and what stands between its braces.
fn enum_parts(input: TokenStream) -> (String, TokenStream) {
    let mut tokens = input.into_iter();
    tokens
        .by_ref()
        .find(|token| matches!(token, TokenTree::Ident(word) if word.to_string() == "enum"))
        .expect("an enum");
    let name = tokens.next().expect("a name").to_string();
    match tokens.next() {
        Some(TokenTree::Group(group)) => (name, group.stream()),
        _ => panic!("an enum without parameters"),
    }
}

/// Each case with the literal of its text.
fn cases(body: TokenStream) -> Vec<(String, String)> {
    let mut text = None;
    let mut found = Vec::new();
    for token in body {
        match token {
            TokenTree::Group(group) => text = error_text(&group).or(text),
            TokenTree::Ident(case) => {
                found.push((case.to_string(), text.take().expect("a text for each case")))
            }
            _ => {}
        }
    }
    found
}

/// The literal of an attribute `[error("..")]`; nothing for any other attribute.
fn error_text(attribute: &Group) -> Option<String> {
    let mut tokens = attribute.stream().into_iter();
    match (tokens.next()?, tokens.next()?) {
        (TokenTree::Ident(word), TokenTree::Group(text))
            if word.to_string() == "error" && text.delimiter() == Delimiter::Parenthesis =>
        {
            Some(text.stream().to_string())
        }
        _ => None,
    }
}
