//! Stand-in for the crate `thiserror`: `#[derive(Error)]` for enums whose variants are bare or have named fields, with
//! `#[error("..")]` on each variant and `#[source]` on a field. It gives `Display` and `std::error::Error`.

use proc_macro::{Delimiter, TokenStream, TokenTree};

#[proc_macro_derive(Error, attributes(error, source))]
pub fn derive_error(input: TokenStream) -> TokenStream {
    let mut name = None;
    let mut body = None;
    let mut tokens = input.into_iter();
    while let Some(token) = tokens.next() {
        if let TokenTree::Ident(word) = &token {
            if word.to_string() == "enum" {
                name = tokens.next().map(|name| name.to_string());
            }
        }
        if let (Some(_), TokenTree::Group(group)) = (&name, &token) {
            if group.delimiter() == Delimiter::Brace {
                body = Some(group.stream());
            }
        }
    }
    let name = name.expect("an enum");
    let mut display = String::new();
    let mut source = String::new();
    for variant in variants(body.expect("a braced body")) {
        let fields: Vec<&str> = variant.fields.iter().map(|(name, _)| name.as_str()).collect();
        let list = fields.join(", ");
        display.push_str(&format!(
            "Self::{} {{ {list} }} => {{ let _ = ({list}{}); ::core::write!(formatter, {}) }}\n",
            variant.name,
            if fields.len() == 1 { "," } else { "" },
            variant.message
        ));
        let inner = variant.fields.iter().find(|(_, is_source)| *is_source);
        source.push_str(&match inner {
            Some((field, _)) => format!("Self::{} {{ {field}, .. }} => Some({field}),\n", variant.name),
            None => format!("Self::{} {{ .. }} => None,\n", variant.name),
        });
    }
    format!(
        "impl ::core::fmt::Display for {name} {{
            fn fmt(&self, formatter: &mut ::core::fmt::Formatter<'_>) -> ::core::fmt::Result {{
                match self {{ {display} }}
            }}
        }}
        impl ::std::error::Error for {name} {{
            fn source(&self) -> Option<&(dyn ::std::error::Error + 'static)> {{
                match self {{ {source} }}
            }}
        }}"
    )
    .parse()
    .expect("the derived code is Rust")
}

struct Variant {
    name: String,
    message: String,
    fields: Vec<(String, bool)>,
}

/// The variants of an enum's body: `#[error("message")] Name { fields },` ...
fn variants(body: TokenStream) -> Vec<Variant> {
    let mut variants = Vec::new();
    let mut message = String::from("\"\"");
    let mut tokens = body.into_iter().peekable();
    while let Some(token) = tokens.next() {
        match token {
            TokenTree::Punct(mark) if mark.as_char() == '#' => {
                if let Some(TokenTree::Group(group)) = tokens.next() {
                    let mut inner = group.stream().into_iter();
                    if inner.next().is_some_and(|word| word.to_string() == "error") {
                        if let Some(TokenTree::Group(arguments)) = inner.next() {
                            message = arguments.stream().to_string();
                        }
                    }
                }
            }
            TokenTree::Ident(name) => {
                let mut variant = Variant { name: name.to_string(), message: message.clone(), fields: Vec::new() };
                if let Some(TokenTree::Group(group)) = tokens.peek() {
                    variant.fields = fields(group.stream());
                    tokens.next();
                }
                variants.push(variant);
            }
            _ => {}
        }
    }
    variants
}

/// The names of a variant's fields, and whether `#[source]` stands on each.
fn fields(body: TokenStream) -> Vec<(String, bool)> {
    let mut fields = Vec::new();
    let mut is_source = false;
    let mut depth = 0i32;
    let mut at_name = true;
    let mut tokens = body.into_iter();
    while let Some(token) = tokens.next() {
        match token {
            TokenTree::Punct(mark) => match mark.as_char() {
                '#' => {
                    if let Some(TokenTree::Group(group)) = tokens.next() {
                        is_source |= group.stream().to_string() == "source";
                    }
                }
                '<' => depth += 1,
                '>' => depth -= 1,
                ',' if depth == 0 => at_name = true,
                _ => {}
            },
            TokenTree::Ident(name) if at_name => {
                fields.push((name.to_string(), is_source));
                is_source = false;
                at_name = false;
            }
            _ => {}
        }
    }
    fields
}
