//! A stand-in for `thiserror`: `derive(Error)` for a struct or an enum with named fields and without
//! generics, with `#[error("..")]` and, in a struct, `#[source]`.
use proc_macro::{Delimiter, TokenStream, TokenTree};

#[proc_macro_derive(Error, attributes(error, source))]
pub fn derive_error(input: TokenStream) -> TokenStream {
    let item = Item::of(input.into_iter().collect());
    let name = &item.name;
    let arms: String = if item.is_enum {
        variants(&item.body).iter().map(|variant| variant.arm(&format!("{name}::{}", variant.name))).collect()
    } else {
        let fields = fields(&item.body).into_iter().map(|field| field.0).collect();
        Variant { text: item.text.clone(), name: name.clone(), fields }.arm(name)
    };
    let source: String = if item.is_enum {
        String::new()
    } else {
        let sources = fields(&item.body).into_iter().filter(|field| field.1);
        sources
            .map(|(field, _)| {
                format!(
                    "fn source(&self) -> ::core::option::Option<&(dyn ::core::error::Error + 'static)> {{
                        ::core::option::Option::Some(&self.{field})
                    }}"
                )
            })
            .collect()
    };
    format!(
        "impl ::core::fmt::Display for {name} {{
            fn fmt(&self, f: &mut ::core::fmt::Formatter<'_>) -> ::core::fmt::Result {{
                match self {{ {arms} }}
            }}
        }}
        impl ::core::error::Error for {name} {{ {source} }}"
    )
    .parse()
    .unwrap()
}

struct Item {
    is_enum: bool,
    name: String,
    text: String,
    body: Vec<TokenTree>,
}

impl Item {
    fn of(tokens: Vec<TokenTree>) -> Item {
        let at = tokens
            .iter()
            .position(|token| matches!(token.to_string().as_str(), "struct" | "enum"))
            .expect("a struct or an enum");
        let body = tokens.iter().rev().find_map(braced).expect("named fields or variants");
        Item {
            is_enum: tokens[at].to_string() == "enum",
            name: tokens[at + 1].to_string(),
            text: error_text(&tokens[..at]).unwrap_or_default(),
            body,
        }
    }
}

struct Variant {
    text: String,
    name: String,
    fields: Vec<String>,
}

impl Variant {
    /// A match arm that binds the fields which the text names.
    fn arm(&self, path: &str) -> String {
        let named = self.fields.iter().filter(|field| self.text.contains(&format!("{{{field}")));
        let named: String = named.map(|field| format!("{field}, ")).collect();
        format!("{path} {{ {named} .. }} => ::core::write!(f, {}),", self.text)
    }
}

fn braced(token: &TokenTree) -> Option<Vec<TokenTree>> {
    match token {
        TokenTree::Group(group) if group.delimiter() == Delimiter::Brace => Some(group.stream().into_iter().collect()),
        _ => None,
    }
}

/// The contents of the attributes among some tokens.
fn attributes(tokens: &[TokenTree]) -> impl Iterator<Item = Vec<TokenTree>> + '_ {
    tokens.iter().filter_map(|token| match token {
        TokenTree::Group(group) if group.delimiter() == Delimiter::Bracket => {
            Some(group.stream().into_iter().collect())
        }
        _ => None,
    })
}

/// The text, with its quotation marks, of `#[error("..")]`.
fn error_text(tokens: &[TokenTree]) -> Option<String> {
    attributes(tokens).find_map(|attribute| match attribute.as_slice() {
        [TokenTree::Ident(name), TokenTree::Group(text)] if name.to_string() == "error" => {
            Some(text.stream().to_string())
        }
        _ => None,
    })
}

/// The parts between commas that are outside of angle brackets.
fn parts(tokens: &[TokenTree]) -> Vec<Vec<TokenTree>> {
    let (mut parts, mut depth) = (vec![Vec::new()], 0);
    for token in tokens {
        match token.to_string().as_str() {
            "<" => depth += 1,
            ">" => depth -= 1,
            "," if depth == 0 => {
                parts.push(Vec::new());
                continue;
            }
            _ => (),
        }
        parts.last_mut().unwrap().push(token.clone());
    }
    parts.retain(|part| !part.is_empty());
    parts
}

fn variants(tokens: &[TokenTree]) -> Vec<Variant> {
    let variant = |part: &Vec<TokenTree>| Variant {
        text: error_text(part).expect("an error text"),
        name: part.iter().find_map(ident).expect("a variant's name"),
        fields: part
            .iter()
            .find_map(braced)
            .map_or(Vec::new(), |body| fields(&body).into_iter().map(|f| f.0).collect()),
    };
    parts(tokens).iter().map(variant).collect()
}

fn ident(token: &TokenTree) -> Option<String> {
    match token {
        TokenTree::Ident(ident) => Some(ident.to_string()),
        _ => None,
    }
}

/// The named fields, each with whether it is the source.
fn fields(tokens: &[TokenTree]) -> Vec<(String, bool)> {
    let field = |part: &Vec<TokenTree>| {
        let colon = part.iter().position(|token| token.to_string() == ":").expect("a field's type");
        let source =
            attributes(&part[..colon]).any(|attribute| attribute.len() == 1 && attribute[0].to_string() == "source");
        (part[colon - 1].to_string(), source)
    };
    parts(tokens).iter().map(field).collect()
}
