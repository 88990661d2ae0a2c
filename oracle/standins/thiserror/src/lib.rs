//! Stand-in for `thiserror`: `Error` and `From` of an enum; its text is its `Debug` form.

use proc_macro::{Delimiter, TokenStream, TokenTree};

#[proc_macro_derive(Error, attributes(error, from))]
pub fn derive_error(input: TokenStream) -> TokenStream {
    let tokens: Vec<TokenTree> = input.into_iter().collect();
    let at = tokens.iter().position(|t| t.to_string() == "enum").expect("an enum");
    let name = tokens[at + 1].to_string();
    let mut code = format!(
        "impl ::std::fmt::Display for {name} {{
            fn fmt(&self, out: &mut ::std::fmt::Formatter<'_>) -> ::std::fmt::Result {{
                ::std::fmt::Debug::fmt(self, out)
            }}
        }}
        impl ::std::error::Error for {name} {{}}"
    );
    for (variant, source) in wrapping_variants(&tokens) {
        code.push_str(&format!(
            "impl From<{source}> for {name} {{
                fn from(source: {source}) -> Self {{ {name}::{variant}(source) }}
            }}"
        ));
    }
    code.parse().expect("generated code parses")
}

/// The variants that carry `#[from]`, each with the type it wraps.
fn wrapping_variants(tokens: &[TokenTree]) -> Vec<(String, String)> {
    let Some(TokenTree::Group(body)) = tokens.last() else { panic!("an enum with a body") };
    let body: Vec<TokenTree> = body.stream().into_iter().collect();
    let mut found = Vec::new();
    for pair in body.windows(2) {
        if let (TokenTree::Ident(variant), TokenTree::Group(fields)) = (&pair[0], &pair[1])
            && fields.delimiter() == Delimiter::Parenthesis
            && let Some(source) = wrapped_type(fields.stream())
        {
            found.push((variant.to_string(), source));
        }
    }
    found
}

fn wrapped_type(fields: TokenStream) -> Option<String> {
    let fields: Vec<TokenTree> = fields.into_iter().collect();
    let marked = fields.len() > 2 && fields[1].to_string() == "[from]";
    marked.then(|| fields[2..].iter().cloned().collect::<TokenStream>().to_string())
}
