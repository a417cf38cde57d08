//! `derive(Error)` with the one thing of it that the original's files use: a `From` for each variant
//! whose field is marked `#[from]`. Messages are left out.

use proc_macro::{Delimiter, TokenStream, TokenTree};

#[proc_macro_derive(Error, attributes(error, from))]
pub fn derive_error(item: TokenStream) -> TokenStream {
    let tokens: Vec<TokenTree> = item.into_iter().collect();
    let at = tokens.iter().position(|token| token.to_string() == "enum").expect("an enum");
    let name = tokens[at + 1].to_string();
    let TokenTree::Group(body) = &tokens[at + 2] else { panic!("an enum without parameters") };
    let body: Vec<TokenTree> = body.stream().into_iter().collect();
    let mut text = String::new();
    for two in body.windows(2) {
        if let (TokenTree::Ident(variant), TokenTree::Group(fields)) = (&two[0], &two[1]) {
            if let Some(source) = marked(fields) {
                text += &format!(
                    "impl From<{source}> for {name} {{ fn from(source: {source}) -> Self {{ {name}::{variant}(source) }} }}"
                );
            }
        }
    }
    text.parse().expect("the text is Rust")
}

/// The type behind `#[from]` in a variant's parentheses.
fn marked(fields: &proc_macro::Group) -> Option<String> {
    let fields_tokens: Vec<TokenTree> = fields.stream().into_iter().collect();
    let is_marked = fields.delimiter() == Delimiter::Parenthesis
        && fields_tokens.len() > 2
        && fields_tokens[1].to_string().replace(' ', "") == "[from]";
    is_marked.then(|| fields_tokens[2..].iter().cloned().collect::<TokenStream>().to_string())
}
