//! The attribute `#[binrw]` for structs with named fields and no generics: the struct stays
//! as it is, and `BinRead` and `BinWrite` go through its fields in order.

use proc_macro::{Delimiter, TokenStream, TokenTree};

#[proc_macro_attribute]
pub fn binrw(_arguments: TokenStream, item: TokenStream) -> TokenStream {
    let (name, fields) = parts(item.clone());
    let read: String = fields
        .iter()
        .map(|field| format!("{field}: ::binrw::BinRead::read_options(reader, endian, ())?,"))
        .collect();
    let write: String = fields
        .iter()
        .map(|field| {
            format!("::binrw::BinWrite::write_options(&self.{field}, writer, endian, ())?;")
        })
        .collect();
    let impls = format!(
        "impl ::binrw::BinRead for {name} {{
            fn read_options<R: ::std::io::Read>(
                reader: &mut R, endian: ::binrw::Endian, (): ()
            ) -> ::binrw::BinResult<Self> {{ Ok(Self {{ {read} }}) }}
        }}
        impl ::binrw::BinWrite for {name} {{
            fn write_options<W: ::std::io::Write>(
                &self, writer: &mut W, endian: ::binrw::Endian, (): ()
            ) -> ::binrw::BinResult<()> {{ {write} Ok(()) }}
        }}"
    );
    let mut out = item;
    out.extend(
        impls
            .parse::<TokenStream>()
            .expect("the text above is Rust"),
    );
    out
}

/// The struct's name and the names of its fields.
fn parts(item: TokenStream) -> (String, Vec<String>) {
    let mut tokens = item.into_iter();
    tokens
        .find(|token| token.to_string() == "struct")
        .expect("#[binrw] stands before a struct");
    let name = tokens.next().expect("a struct has a name").to_string();
    let body = match tokens.next() {
        Some(TokenTree::Group(group)) if group.delimiter() == Delimiter::Brace => group.stream(),
        _ => panic!("#[binrw] needs a struct with named fields and no generics"),
    };
    // A field's name is the token before its colon. Arrays are one token each, so that the
    // only colons and commas seen here are those of the fields.
    let tokens: Vec<TokenTree> = body.into_iter().collect();
    let fields = tokens
        .windows(2)
        .filter(|pair| pair[1].to_string() == ":")
        .map(|pair| pair[0].to_string())
        .collect();
    (name, fields)
}
