//! Stand-ins for the two derive macros that the published files use and that can't be had here: binrw's `BinRead` and displaydoc's
//! `Display`. They know just the shapes that occur there: plain structs and one enum, without generics or attributes of binrw.
use proc_macro::{Delimiter, Group, TokenStream, TokenTree};

/// The name after `struct` or `enum`, and the group behind it.
fn named(input: TokenStream) -> (String, Group) {
    let mut tokens =
        input.into_iter().skip_while(|t| !matches!(t, TokenTree::Ident(i) if ["struct", "enum"].contains(&i.to_string().as_str())));
    tokens.next();
    match (tokens.next(), tokens.next()) {
        (Some(TokenTree::Ident(name)), Some(TokenTree::Group(body))) => (name.to_string(), body),
        _ => panic!("a plain struct or enum is expected"),
    }
}

/// The field names of a struct with named fields: each identifier in front of a colon that starts a type.
fn fields(body: &Group) -> Vec<String> {
    let tokens: Vec<TokenTree> = body.stream().into_iter().collect();
    let colon = |t: &TokenTree| matches!(t, TokenTree::Punct(p) if p.as_char() == ':');
    tokens.windows(2).filter(|w| matches!(w[0], TokenTree::Ident(_)) && colon(&w[1])).map(|w| w[0].to_string()).collect()
}

/// Reads field after field, in their order. A struct with named fields also gets `Debug`, so that its private fields can be looked at.
#[proc_macro_derive(BinRead)]
pub fn bin_read(input: TokenStream) -> TokenStream {
    let (name, body) = named(input);
    if body.delimiter() == Delimiter::Parenthesis {
        return implement(&name, "(::binrw::BinRead::read(reader)?)", "");
    }
    let mut read = String::from("{");
    let mut shown = format!("f.debug_struct({name:?})");
    for field in fields(&body) {
        read += &format!("{field}: ::binrw::BinRead::read(reader)?,");
        shown += &format!(".field({field:?}, &self.{field})");
    }
    let debug = format!(
        "impl ::core::fmt::Debug for {name} {{
            fn fmt(&self, f: &mut ::core::fmt::Formatter<'_>) -> ::core::fmt::Result {{ {shown}.finish() }}
        }}"
    );
    implement(&name, &(read + "}"), &debug)
}

fn implement(name: &str, read: &str, more: &str) -> TokenStream {
    let code = format!(
        "impl ::binrw::BinRead for {name} {{
            fn read<R: ::binrw::io::Read + ::binrw::io::Seek>(reader: &mut R) -> ::binrw::BinResult<Self> {{ Ok({name} {read}) }}
        }}
        {more}"
    );
    code.parse().expect("the code above parses")
}

/// The messages are of no interest here: an error shows itself as `Debug` does.
#[proc_macro_derive(Display)]
pub fn display(input: TokenStream) -> TokenStream {
    let (name, _) = named(input);
    let code = format!(
        "impl ::core::fmt::Display for {name} {{
            fn fmt(&self, f: &mut ::core::fmt::Formatter<'_>) -> ::core::fmt::Result {{ ::core::fmt::Debug::fmt(self, f) }}
        }}"
    );
    code.parse().expect("the code above parses")
}
