//! Stand-in for the derive macro `Error` of the crate thiserror. For each variant with one
//! `#[from]` field it writes the `From` of that field's type, and nothing else: messages and
//! sources of errors are not used here.

use proc_macro::{Delimiter, Group, TokenStream, TokenTree};

/// The derive macro.
#[proc_macro_derive(Error, attributes(error, from, source))]
pub fn error(input: TokenStream) -> TokenStream {
    let tokens: Vec<TokenTree> = input.into_iter().collect();
    let name = name_after_enum(&tokens);
    let Some(TokenTree::Group(body)) = tokens.last() else {
        panic!("{name} has no body");
    };
    let variants: Vec<TokenTree> = body.stream().into_iter().collect();
    let impls: String = variants
        .windows(2)
        .filter_map(|pair| from_impl(&name, pair))
        .collect();
    impls.parse().expect("a From is an item")
}

/// The name of the enum.
fn name_after_enum(tokens: &[TokenTree]) -> String {
    let at = tokens
        .iter()
        .position(|token| token.to_string() == "enum")
        .expect("only enums derive Error");
    tokens[at + 1].to_string()
}

/// The `From` of a variant `Name(#[from] Type)`.
fn from_impl(name: &str, pair: &[TokenTree]) -> Option<String> {
    let [TokenTree::Ident(variant), TokenTree::Group(fields)] = pair else {
        return None;
    };
    let field = from_type(fields)?;
    Some(format!(
        "impl From<{field}> for {name} {{ fn from(e: {field}) -> Self {{ Self::{variant}(e) }} }}"
    ))
}

/// The type after `#[from]` in a variant's parentheses.
fn from_type(fields: &Group) -> Option<String> {
    if fields.delimiter() != Delimiter::Parenthesis {
        return None;
    }
    let mut tokens = fields.stream().into_iter();
    let hash = tokens.next()?.to_string();
    let attribute = tokens.next()?.to_string();
    let rest: TokenStream = tokens.collect();
    (hash == "#" && attribute == "[from]").then(|| rest.to_string())
}
