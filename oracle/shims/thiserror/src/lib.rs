//! Stands in for `thiserror`: one `From` for each variant marked `#[from]`. Error texts are left out.

use proc_macro::{Delimiter, TokenStream, TokenTree};

#[proc_macro_derive(Error, attributes(error, source, from))]
pub fn derive(item: TokenStream) -> TokenStream {
    let tokens: Vec<TokenTree> = item.into_iter().collect();
    let Some(at) = tokens.iter().position(|t| t.to_string() == "enum") else {
        return TokenStream::new();
    };
    let name = tokens[at + 1].to_string();
    let body = tokens.iter().rev().find_map(braced).unwrap_or_default();
    let mut out = String::new();
    let mut variant = String::new();
    for token in body {
        match token {
            TokenTree::Ident(ident) => variant = ident.to_string(),
            TokenTree::Group(group) if group.delimiter() == Delimiter::Parenthesis => {
                if let Some(from) = marked(group.stream()) {
                    out += &format!("impl From<{from}> for {name} {{ fn from(e: {from}) -> Self {{ Self::{variant}(e) }} }}");
                }
            }
            _ => {}
        }
    }
    out.parse().expect("an impl for each variant")
}

fn braced(token: &TokenTree) -> Option<TokenStream> {
    match token {
        TokenTree::Group(group) if group.delimiter() == Delimiter::Brace => Some(group.stream()),
        _ => None,
    }
}

/// The type after `#[from]`, if that is how the fields begin.
fn marked(fields: TokenStream) -> Option<String> {
    let mut fields = fields.into_iter();
    let (hash, mark) = (fields.next()?, fields.next()?);
    (hash.to_string() == "#" && mark.to_string() == "[from]").then(|| fields.collect::<TokenStream>().to_string())
}
