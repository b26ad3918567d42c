//! Stands in for serde's derive of `Serialize`, for what the originals derive
//! it on: a struct with named fields, an enum whose cases are empty.

use proc_macro::{TokenStream, TokenTree};

pub fn expand(item: TokenStream) -> TokenStream {
    // Attributes and `pub` are of no interest; what is left is
    // `struct` or `enum`, the name, the braces.
    let tokens = plain(item);
    let name = &tokens[1];
    let TokenTree::Group(braces) = &tokens[2] else {
        panic!("only plain structs and enums")
    };
    // A field is `name: type`, a case is its name: the first token of each.
    let names: Vec<String> = plain(braces.stream())
        .split(|t| t.to_string() == ",")
        .filter_map(|part| part.first().map(|t| t.to_string()))
        .collect();

    let body = if tokens[0].to_string() == "struct" {
        let fields: String = names
            .iter()
            .map(|n| format!("fields.serialize_field({n:?}, &self.{n})?;"))
            .collect();
        format!(
            "use ::serde::SerializeStruct;
             let mut fields = serializer.serialize_struct(\"{name}\", {})?;
             {fields}
             fields.end()",
            names.len()
        )
    } else {
        let cases: String = names
            .iter()
            .enumerate()
            .map(|(i, n)| format!("{name}::{n} => ({i}, {n:?}),"))
            .collect();
        format!(
            "let (index, case) = match self {{ {cases} }};
             serializer.serialize_unit_variant(\"{name}\", index, case)"
        )
    };
    format!(
        "impl ::serde::Serialize for {name} {{
            fn serialize<S: ::serde::Serializer>(&self, serializer: S) -> Result<S::Ok, S::Error> {{
                {body}
            }}
        }}"
    )
    .parse()
    .unwrap()
}

/// The tokens without attributes and `pub`.
fn plain(stream: TokenStream) -> Vec<TokenTree> {
    let mut kept: Vec<TokenTree> = Vec::new();
    let mut after_hash = false;
    for token in stream {
        let text = token.to_string();
        if !after_hash && text != "#" && text != "pub" {
            kept.push(token);
        }
        after_hash = text == "#";
    }
    kept
}
