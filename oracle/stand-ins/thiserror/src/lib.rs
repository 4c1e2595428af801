//! Stand-in for the crate `thiserror`: a derive for enums that makes `Display` (the text of `Debug`), `Error`,
//! and `From` for each variant with one `#[from]` field.

use proc_macro::{Delimiter, Group, TokenStream, TokenTree};

#[proc_macro_derive(Error, attributes(error, from))]
pub fn derive_error(input: TokenStream) -> TokenStream {
    let tokens: Vec<TokenTree> = input.into_iter().collect();
    let at = tokens.iter().position(|t| t.to_string() == "enum").expect("an enum");
    let name = tokens[at + 1].to_string();
    let TokenTree::Group(variants) = &tokens[at + 2] else {
        panic!("an enum with no parameters");
    };
    let mut code = format!(
        "impl ::std::fmt::Display for {name} {{
            fn fmt(&self, f: &mut ::std::fmt::Formatter<'_>) -> ::std::fmt::Result {{
                ::std::fmt::Debug::fmt(self, f)
            }}
        }}
        impl ::std::error::Error for {name} {{}}"
    );
    for (variant, source) in from_fields(variants) {
        code += &format!(
            "impl ::std::convert::From<{source}> for {name} {{
                fn from(source: {source}) -> Self {{ {name}::{variant}(source) }}
            }}"
        );
    }
    code.parse().expect("valid code")
}

/// The name of each variant whose one field is marked `#[from]`, with that field's type.
fn from_fields(variants: &Group) -> Vec<(String, String)> {
    let mut found = Vec::new();
    let mut variant = String::new();
    for token in variants.stream() {
        match token {
            TokenTree::Ident(ident) => variant = ident.to_string(),
            TokenTree::Group(group) if group.delimiter() == Delimiter::Parenthesis => {
                let fields: Vec<TokenTree> = group.stream().into_iter().collect();
                if let [TokenTree::Punct(_), TokenTree::Group(mark), source @ ..] = fields.as_slice() {
                    if mark.stream().to_string() == "from" {
                        let source: TokenStream = source.iter().cloned().collect();
                        found.push((variant.clone(), source.to_string()));
                    }
                }
            }
            _ => {}
        }
    }
    found
}
