//! Stand-in for thiserror's `#[derive(Error)]`, as far as the printed error enums use it.
//!
//! It makes the `From` of every field marked `#[from]`, which the printed `?` operators need, and
//! a `Display` that shows the value as `Debug` does: no comparison looks at the message.

use proc_macro::{Delimiter, Group, TokenStream, TokenTree};

#[proc_macro_derive(Error, attributes(error, from, source))]
pub fn error(input: TokenStream) -> TokenStream {
    let (name, body) = name_and_body(input);
    let mut out = format!(
        "impl ::std::fmt::Display for {name} {{
            fn fmt(&self, f: &mut ::std::fmt::Formatter<'_>) -> ::std::fmt::Result {{
                ::std::fmt::Debug::fmt(self, f)
            }}
        }}
        impl ::std::error::Error for {name} {{}}"
    );

    let mut variant = String::new();
    for token in body.stream() {
        match token {
            TokenTree::Ident(ident) => variant = ident.to_string(),
            TokenTree::Group(fields) if fields.delimiter() != Delimiter::Bracket => {
                if let Some((field, ty)) = from_field(&fields) {
                    let made = match field {
                        Some(field) => format!("{name}::{variant} {{ {field}: source }}"),
                        None => format!("{name}::{variant}(source)"),
                    };
                    out.push_str(&format!(
                        "impl ::std::convert::From<{ty}> for {name} {{
                            fn from(source: {ty}) -> Self {{ {made} }}
                        }}"
                    ));
                }
            }
            _ => {}
        }
    }
    out.parse().expect("the impls are well formed")
}

/// The enum's name and the group that holds its variants.
fn name_and_body(input: TokenStream) -> (String, Group) {
    let mut tokens = input.into_iter();
    let is_enum =
        |token: &TokenTree| matches!(token, TokenTree::Ident(i) if i.to_string() == "enum");
    tokens.by_ref().find(is_enum).expect("an enum");
    let name = tokens.next().expect("the enum's name").to_string();
    match tokens.next() {
        Some(TokenTree::Group(body)) => (name, body),
        _ => panic!("an enum without type arguments"),
    }
}

/// The name, if it has one, and the type of the field marked `#[from]`.
fn from_field(fields: &Group) -> Option<(Option<String>, String)> {
    let mut tokens = fields.stream().into_iter();
    tokens.find(|token| {
        matches!(token, TokenTree::Group(mark)
            if mark.delimiter() == Delimiter::Bracket && mark.to_string() == "[from]")
    })?;
    let is_comma = |token: &TokenTree| matches!(token, TokenTree::Punct(p) if p.as_char() == ',');
    let mut rest: Vec<TokenTree> = tokens.take_while(|token| !is_comma(token)).collect();
    let mut field = None;
    if fields.delimiter() == Delimiter::Brace {
        field = Some(rest[0].to_string());
        rest.drain(..2);
    }
    Some((field, rest.into_iter().collect::<TokenStream>().to_string()))
}
