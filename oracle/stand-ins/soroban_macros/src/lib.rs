//! The contract attributes. `contract` and `contractimpl` give the item back; `contracttype` adds the way to and from a stored value.

use proc_macro::{Delimiter, TokenStream, TokenTree};

#[proc_macro_attribute]
pub fn contract(_arguments: TokenStream, item: TokenStream) -> TokenStream {
    item
}

#[proc_macro_attribute]
pub fn contractimpl(_arguments: TokenStream, item: TokenStream) -> TokenStream {
    item
}

/// A struct is stored as the list of its fields, an enum without fields as its number.
#[proc_macro_attribute]
pub fn contracttype(_arguments: TokenStream, item: TokenStream) -> TokenStream {
    let (kind, name, members) = parts(item.clone());
    let body = match kind.as_str() {
        "struct" => struct_body(&members),
        _ => enum_body(&members),
    };
    let stored: TokenStream =
        format!("impl ::soroban_sdk::Stored for {name} {{ {body} }}").parse().expect("the body is Rust");
    item.into_iter().chain(stored).collect()
}

/// The word `struct` or `enum`, the name, and the names of the fields or variants.
fn parts(item: TokenStream) -> (String, String, Vec<String>) {
    let mut tokens = item.into_iter();
    let kind = tokens
        .by_ref()
        .find_map(|token| match token {
            TokenTree::Ident(word) if ["struct", "enum"].contains(&word.to_string().as_str()) => Some(word.to_string()),
            _ => None,
        })
        .expect("contracttype stands before a struct or an enum");
    let name = tokens.next().expect("a type has a name").to_string();
    let members = tokens
        .find_map(|token| match token {
            TokenTree::Group(group) if group.delimiter() == Delimiter::Brace => Some(group.stream()),
            _ => None,
        })
        .expect("a contract type has members in braces");
    (kind, name, member_names(members))
}

/// The last word before each member's `:`, `=` or `,`.
fn member_names(members: TokenStream) -> Vec<String> {
    let mut names = Vec::new();
    let mut word = None;
    let mut named = false;
    let mut depth = 0;
    for token in members {
        match token {
            TokenTree::Ident(ident) if !named => word = Some(ident.to_string()),
            TokenTree::Punct(mark) => match mark.as_char() {
                '<' => depth += 1,
                '>' => depth -= 1,
                ':' | '=' => named = true,
                ',' if depth == 0 => {
                    names.extend(word.take());
                    named = false;
                }
                _ => {}
            },
            _ => {}
        }
    }
    names.extend(word);
    names
}

fn struct_body(fields: &[String]) -> String {
    let stores: String = fields.iter().map(|f| format!("::soroban_sdk::Stored::store(&self.{f}),")).collect();
    let loads: String =
        fields.iter().enumerate().map(|(i, f)| format!("{f}: ::soroban_sdk::Stored::load(&fields[{i}]),")).collect();
    format!(
        "fn store(&self) -> ::soroban_sdk::Val {{ ::soroban_sdk::Val::Fields(::std::vec![{stores}]) }}
         fn load(value: &::soroban_sdk::Val) -> Self {{ let fields = value.fields(); Self {{ {loads} }} }}"
    )
}

fn enum_body(variants: &[String]) -> String {
    let loads: String = variants.iter().map(|v| format!("n if n == Self::{v} as u32 => Self::{v},")).collect();
    format!(
        "fn store(&self) -> ::soroban_sdk::Val {{ ::soroban_sdk::Val::U32(*self as u32) }}
         fn load(value: &::soroban_sdk::Val) -> Self {{
             match <u32 as ::soroban_sdk::Stored>::load(value) {{ {loads} n => panic!(\"no variant {{n}}\") }}
         }}"
    )
}
