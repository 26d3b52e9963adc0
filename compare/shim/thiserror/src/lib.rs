//! Stands in for the crate `thiserror`, so that nothing has to be fetched. Of its derive it has what the given files use: the traits
//! `Error` and `Display`, and a `From` for a field that is marked `#[from]`. The texts of messages are left out; no fold reads them.
use proc_macro::{Delimiter, TokenStream, TokenTree};

#[proc_macro_derive(Error, attributes(error, from, source))]
pub fn derive_error(input: TokenStream) -> TokenStream {
    let mut trees = input.into_iter();
    let mut name = String::new();
    let mut is_enum = false;
    while let Some(tree) = trees.next() {
        match tree {
            TokenTree::Ident(word) if word.to_string() == "enum" || word.to_string() == "struct" => {
                is_enum = word.to_string() == "enum";
                name = trees.next().expect("a name").to_string();
                break;
            }
            _ => {}
        }
    }
    let mut out = format!(
        "impl ::core::fmt::Display for {name} {{
             fn fmt(&self, f: &mut ::core::fmt::Formatter<'_>) -> ::core::fmt::Result {{ ::core::fmt::Debug::fmt(self, f) }}
         }}
         impl ::core::error::Error for {name} {{}}"
    );
    let body = trees.find_map(|tree| match tree {
        TokenTree::Group(group) if group.delimiter() == Delimiter::Brace => Some(group.stream()),
        _ => None,
    });
    if let (true, Some(body)) = (is_enum, body) {
        for (variant, source) in sources(body) {
            out += &format!("impl From<{source}> for {name} {{ fn from(from: {source}) -> Self {{ Self::{variant}(from) }} }}");
        }
    }
    out.parse().expect("Rust")
}

/// The variants whose only field is marked `#[from]`, with the field's type.
fn sources(body: TokenStream) -> Vec<(String, String)> {
    let mut found = Vec::new();
    let mut variant = String::new();
    for tree in body {
        match tree {
            TokenTree::Ident(word) => variant = word.to_string(),
            TokenTree::Group(group) if group.delimiter() == Delimiter::Parenthesis => {
                if let Some(source) = marked(group.stream()) {
                    found.push((variant.clone(), source));
                }
            }
            _ => {}
        }
    }
    found
}

/// The type behind `#[from]`.
fn marked(field: TokenStream) -> Option<String> {
    let trees: Vec<TokenTree> = field.into_iter().collect();
    let (TokenTree::Punct(hash), TokenTree::Group(mark)) = (trees.first()?, trees.get(1)?) else { return None };
    if hash.as_char() != '#' || mark.stream().to_string() != "from" {
        return None;
    }
    Some(trees[2..].iter().map(ToString::to_string).collect())
}
