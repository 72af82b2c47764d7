//! The derives of the stand-ins for `zerocopy` (structs) and `enumn` (enums), by hand on tokens: no syn, no quote.
//! Assumed is what sound.rs and the stand-ins have, and no more: structs with named fields, at most one type parameter `T`;
//! enums without data, with an integer `repr`.
use proc_macro::{Delimiter, TokenStream, TokenTree};

struct Item {
    name: String,
    generic: bool,
    repr: String,
    /// field types of a struct, variant names of an enum
    parts: Vec<String>,
}

fn parse(input: TokenStream) -> Item {
    let mut it = input.into_iter().peekable();
    let (mut name, mut repr, mut generic, mut is_enum) = (String::new(), String::new(), false, false);
    while let Some(t) = it.next() {
        match t {
            TokenTree::Punct(p) if p.as_char() == '#' => {
                if let Some(TokenTree::Group(g)) = it.next() {
                    let s: Vec<TokenTree> = g.stream().into_iter().collect();
                    if let [TokenTree::Ident(name), TokenTree::Group(r), ..] = &s[..]
                        && name.to_string() == "repr"
                    {
                        repr = r.stream().to_string();
                    }
                }
            }
            TokenTree::Ident(i) if i.to_string() == "struct" || i.to_string() == "enum" => {
                is_enum = i.to_string() == "enum";
                name = it.next().unwrap().to_string();
            }
            TokenTree::Punct(p) if p.as_char() == '<' => generic = true,
            TokenTree::Group(g) if g.delimiter() == Delimiter::Brace => {
                return Item { name, generic, repr, parts: parts(g.stream(), is_enum) };
            }
            _ => {}
        }
    }
    panic!("the stand-in derive wants a struct with named fields or an enum");
}

fn parts(body: TokenStream, is_enum: bool) -> Vec<String> {
    let mut out = vec![];
    let mut cur: Vec<TokenTree> = vec![];
    let mut depth = 0;
    let mut all: Vec<TokenTree> = body.into_iter().collect();
    all.push(TokenTree::Punct(proc_macro::Punct::new(',', proc_macro::Spacing::Alone)));
    let mut skip = false;
    for t in all {
        if skip {
            skip = false;
            continue;
        }
        if let TokenTree::Punct(p) = &t {
            match p.as_char() {
                '#' if cur.is_empty() => {
                    skip = true;
                    continue;
                }
                '<' => depth += 1,
                '>' => depth -= 1,
                ',' if depth == 0 => {
                    if !cur.is_empty() {
                        if is_enum {
                            out.push(cur[0].to_string());
                        } else {
                            let c = cur.iter().position(|t| t.to_string() == ":").unwrap();
                            out.push(cur[c + 1..].iter().cloned().collect::<TokenStream>().to_string());
                        }
                    }
                    cur.clear();
                    continue;
                }
                _ => {}
            }
        }
        cur.push(t);
    }
    out
}

fn mark(input: TokenStream, traits: &[&str], sum: bool) -> TokenStream {
    let i = parse(input);
    let mut s = String::new();
    for t in traits {
        if i.generic {
            s += &format!("unsafe impl<T: ::zerocopy::{t}> ::zerocopy::{t} for {}<T> {{}}", i.name);
        } else {
            s += &format!("unsafe impl ::zerocopy::{t} for {} {{}}", i.name);
            for p in &i.parts {
                s += &format!("const _: () = {{ const fn has<X: ?Sized + ::zerocopy::{t}>() {{}} has::<{p}>() }};");
            }
        }
    }
    if sum && !i.generic {
        let terms: Vec<String> = i.parts.iter().map(|p| format!("::core::mem::size_of::<{p}>()")).collect();
        s += &format!("const _: () = assert!(::core::mem::size_of::<{}>() == {});", i.name, terms.join("+"));
    }
    s.parse().unwrap()
}

#[proc_macro_derive(FromBytes)]
pub fn from_bytes(i: TokenStream) -> TokenStream {
    mark(i, &["FromZeros", "FromBytes"], false)
}
#[proc_macro_derive(Immutable)]
pub fn immutable(i: TokenStream) -> TokenStream {
    mark(i, &["Immutable"], false)
}
#[proc_macro_derive(KnownLayout)]
pub fn known_layout(i: TokenStream) -> TokenStream {
    mark(i, &["KnownLayout"], false)
}
#[proc_macro_derive(IntoBytes)]
pub fn into_bytes(i: TokenStream) -> TokenStream {
    mark(i, &["IntoBytes"], true)
}
#[proc_macro_derive(N)]
pub fn n(input: TokenStream) -> TokenStream {
    let i = parse(input);
    let mut arms = String::new();
    for v in &i.parts {
        arms += &format!("if value == Self::{v} as {} {{ return Some(Self::{v}); }}", i.repr);
    }
    format!("#[allow(dead_code)] impl {} {{ pub fn n(value: {}) -> Option<Self> {{ {arms} None }} }}", i.name, i.repr)
        .parse()
        .unwrap()
}
