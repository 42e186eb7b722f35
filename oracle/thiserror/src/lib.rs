//! A stand-in for `#[derive(thiserror::Error)]` on a struct with named fields
//! and one `#[error("..")]` text, which is all that the published sources use.

use proc_macro::{Delimiter, TokenStream, TokenTree};

#[proc_macro_derive(Error, attributes(error))]
pub fn derive_error(item: TokenStream) -> TokenStream {
    let tokens: Vec<TokenTree> = item.into_iter().collect();
    let text = error_text(&tokens).expect("an #[error(\"..\")] attribute");
    let name = struct_name(&tokens).expect("a struct");
    let fields = field_names(&tokens).expect("named fields").join(", ");
    format!(
        "impl ::core::fmt::Display for {name} {{
            fn fmt(&self, f: &mut ::core::fmt::Formatter<'_>) -> ::core::fmt::Result {{
                let Self {{ {fields} }} = self;
                ::core::write!(f, {text})
            }}
        }}
        impl ::core::error::Error for {name} {{}}"
    )
    .parse()
    .expect("generated items are well formed")
}

/// The string literal inside `#[error(..)]`.
fn error_text(tokens: &[TokenTree]) -> Option<String> {
    tokens.iter().find_map(|token| {
        let TokenTree::Group(attribute) = token else {
            return None;
        };
        let inner: Vec<TokenTree> = attribute.stream().into_iter().collect();
        match inner.as_slice() {
            [TokenTree::Ident(name), TokenTree::Group(text)] if name.to_string() == "error" => {
                Some(text.stream().to_string())
            }
            _ => None,
        }
    })
}

fn struct_name(tokens: &[TokenTree]) -> Option<String> {
    tokens.windows(2).find_map(|pair| match pair {
        [TokenTree::Ident(word), name] if word.to_string() == "struct" => Some(name.to_string()),
        _ => None,
    })
}

/// Each name in the braces that stands right before a single colon.
fn field_names(tokens: &[TokenTree]) -> Option<Vec<String>> {
    let TokenTree::Group(body) = tokens.last()? else {
        return None;
    };
    if body.delimiter() != Delimiter::Brace {
        return None;
    }
    let inner: Vec<TokenTree> = body.stream().into_iter().collect();
    let names = inner.windows(2).filter_map(|pair| match pair {
        [TokenTree::Ident(name), TokenTree::Punct(colon)] if colon.as_char() == ':' => {
            Some(name.to_string())
        }
        _ => None,
    });
    Some(names.collect())
}
