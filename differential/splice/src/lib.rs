//! `module_from! { "src/file.rs" => pub mod name { access code } }` makes a module of the tokens of a file of the reference, read where they
//! stand and in no way altered, followed by the access code. So the access code is inside the module and sees its private items, and the
//! repository holds no copy of the file.
//!
//! The reference is the folder that the environment variable LAIDOUT_SRC names, seen from `differential/`; else it is DEFAULT.

use std::path::Path;

use proc_macro::{Delimiter, Group, TokenStream, TokenTree};

const DEFAULT: &str = "../../shared/docs/src";

#[proc_macro]
pub fn module_from(input: TokenStream) -> TokenStream {
    let mut tokens = input.into_iter().peekable();
    let path = match tokens.next() {
        Some(TokenTree::Literal(literal)) => literal.to_string().trim_matches('"').to_string(),
        _ => panic!("module_from: a path in quotes comes first"),
    };
    // The arrow `=>`.
    tokens.next();
    tokens.next();
    let mut out: Vec<TokenTree> = tokens.collect();
    let access = match out.pop() {
        Some(TokenTree::Group(group)) if group.delimiter() == Delimiter::Brace => group.stream(),
        _ => panic!("module_from: access code in braces comes last"),
    };
    let own = std::env::var("CARGO_MANIFEST_DIR").expect("run by cargo");
    let named = std::env::var("LAIDOUT_SRC").unwrap_or(DEFAULT.to_string());
    let whole = Path::new(&own).join("..").join(named).join(path);
    let text = std::fs::read_to_string(&whole)
        .unwrap_or_else(|error| panic!("{}: {error} (LAIDOUT_SRC says where the reference is)", whole.display()));
    let mut body: TokenStream = text.parse().unwrap_or_else(|error| panic!("{}: {error}", whole.display()));
    // Makes cargo build again when the file or its place changes.
    let watch = format!("const _: (&[u8], Option<&str>) = (include_bytes!({whole:?}), option_env!(\"LAIDOUT_SRC\"));");
    let watch: TokenStream = watch.parse().expect("an item");
    body.extend(watch);
    body.extend(access);
    out.push(TokenTree::Group(Group::new(Delimiter::Brace, body)));
    out.into_iter().collect()
}
