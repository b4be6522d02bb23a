//! Stand-in for `bitfield_struct`: registers of one byte.
//!
//! The fields fill the byte from bit 0 up in the written order; a `bool` has one bit and a `u8`
//! eight unless `#[bits(n)]` says otherwise, and a name that begins with `_` is padding.
//! `new` is zero and the conversions from and into `u8` keep every bit. A named field gets a
//! getter and, unless `access = RO`, a `with_` that alters no other bit, both as visible as the
//! field. For tests, `FIELDS` lists the named fields with calls of these accessors.

use proc_macro::token_stream::IntoIter;
use proc_macro::{TokenStream, TokenTree};
use std::iter::Peekable;

type Tokens = Peekable<IntoIter>;

struct Field {
    documentation: String,
    visibility: String,
    name: String,
    flag: bool,
    width: u32,
    read_only: bool,
}

/// Makes a register of one byte from a struct of fields.
#[proc_macro_attribute]
pub fn bitfield(arguments: TokenStream, item: TokenStream) -> TokenStream {
    match arguments.to_string().replace(' ', "").as_str() {
        "u8" | "u8,defmt=true" => register(item).parse().expect("Rust"),
        other => panic!("bitfield({other}) has no stand-in"),
    }
}

fn register(item: TokenStream) -> String {
    let mut item = item.into_iter().peekable();
    let attributes: String = attributes(&mut item).iter().map(|it| format!("#{it}\n")).collect();
    let visibility = visibility(&mut item);
    assert_eq!(word(&mut item), "struct");
    let name = word(&mut item);
    let fields = fields(item.next());

    let (mut accessors, mut list, mut shift) = (String::new(), String::new(), 0);
    for field in &fields {
        if !field.name.starts_with('_') {
            accessors += &field.accessors(shift);
            list += &field.listed();
        }
        shift += field.width;
    }
    assert_eq!(shift, 8, "the widths of {name}");

    format!(
        "{attributes}
        #[derive(Clone, Copy, Debug, Default, PartialEq, Eq)]
        {visibility} struct {name}(u8);
        impl {name} {{
            /// The register holding zero.
            pub const fn new() -> Self {{ Self(0) }}
            {accessors}
            #[doc(hidden)]
            #[allow(clippy::type_complexity)]
            pub const FIELDS: &'static [(&'static str, fn(u8) -> u8, Option<fn(u8, u8) -> u8>)]
                = &[{list}];
        }}
        impl From<u8> for {name} {{ fn from(byte: u8) -> Self {{ Self(byte) }} }}
        impl From<{name}> for u8 {{ fn from(register: {name}) -> u8 {{ register.0 }} }}"
    )
}

impl Field {
    fn accessors(&self, shift: u32) -> String {
        let Field { documentation, visibility, name, .. } = self;
        let mask = u8::MAX >> (8 - self.width);
        let (kind, test) = if self.flag { ("bool", "!= 0") } else { ("u8", "") };
        let mut accessors = format!(
            "{documentation}
            {visibility} const fn {name}(&self) -> {kind} {{ (self.0 >> {shift} & {mask}) {test} }}"
        );
        if !self.read_only {
            accessors += &format!(
                "/// With `{name}` replaced.
                {visibility} const fn with_{name}(self, value: {kind}) -> Self {{
                    Self(self.0 & !({mask} << {shift}) | (value as u8 & {mask}) << {shift})
                }}"
            );
        }
        accessors
    }

    fn listed(&self) -> String {
        let name = &self.name;
        let value = if self.flag { "value % 2 == 1" } else { "value" };
        let with = if self.read_only {
            "None".to_string()
        } else {
            format!("Some(|byte, value| Self(byte).with_{name}({value}).0)")
        };
        format!("(\"{name}\", |byte| Self(byte).{name}() as u8, {with}),")
    }
}

fn fields(body: Option<TokenTree>) -> Vec<Field> {
    let Some(TokenTree::Group(body)) = body else { panic!("no fields") };
    let mut tokens = body.stream().into_iter().peekable();
    let mut fields = Vec::new();
    while tokens.peek().is_some() {
        fields.push(field(&mut tokens));
    }
    fields
}

fn field(tokens: &mut Tokens) -> Field {
    let mut documentation = String::new();
    let mut bits = None;
    for attribute in attributes(tokens) {
        let text = attribute.to_string().replace(' ', "");
        match text.strip_prefix("[bits(").and_then(|it| it.strip_suffix(")]")) {
            Some(arguments) => bits = Some(arguments.to_string()),
            None => documentation += &format!("#{attribute}\n"),
        }
    }
    let visibility = visibility(tokens);
    let name = word(tokens);
    assert_eq!(word(tokens), ":");
    let flag = match word(tokens).as_str() {
        "bool" => true,
        "u8" => false,
        other => panic!("a field of type {other} has no stand-in"),
    };
    if tokens.peek().is_some() {
        assert_eq!(word(tokens), ",");
    }

    let bits = bits.unwrap_or_else(|| if flag { "1" } else { "8" }.to_string());
    let (width, read_only) = match bits.strip_suffix(",access=RO") {
        Some(width) => (width, true),
        None => (bits.as_str(), false),
    };
    let width = width.parse().expect("bits(n) or bits(n, access = RO)");
    assert!((1..=8).contains(&width) && (!flag || width == 1));
    Field { documentation, visibility, name, flag, width, read_only }
}

/// The bracketed parts of the attributes that come next.
fn attributes(tokens: &mut Tokens) -> Vec<TokenTree> {
    let mut found = Vec::new();
    while matches!(tokens.peek(), Some(TokenTree::Punct(it)) if it.as_char() == '#') {
        tokens.next();
        found.extend(tokens.next());
    }
    found
}

/// The visibility that comes next, empty if private.
fn visibility(tokens: &mut Tokens) -> String {
    let mut visibility = String::new();
    if matches!(tokens.peek(), Some(TokenTree::Ident(it)) if it.to_string() == "pub") {
        visibility = word(tokens);
        if let Some(TokenTree::Group(_)) = tokens.peek() {
            visibility += &word(tokens);
        }
    }
    visibility
}

fn word(tokens: &mut Tokens) -> String {
    tokens.next().expect("a token").to_string()
}
