//! The derives that the originals name.
//!
//! `Debug` is the one with a purpose: beside the trait it gives every named field of a struct a reader,
//! `field_NAME()`. A derive's code stands in the module of its struct, so the driver can look at what the
//! originals keep private without a changed letter in them.

use proc_macro::{Delimiter, TokenStream, TokenTree};

struct Item {
    name: String,
    /// Parameters as `impl` declares them, without defaults: `'a, T: Copy, const N: bool`.
    params: String,
    /// The same as arguments: `'a, T, N`.
    args: String,
    wheres: String,
    fields: Vec<(String, String)>,
}

fn text(tokens: &[TokenTree]) -> String {
    tokens.iter().cloned().collect::<TokenStream>().to_string()
}

fn is_punct(token: &TokenTree, c: char) -> bool {
    matches!(token, TokenTree::Punct(p) if p.as_char() == c)
}

fn is_ident(token: &TokenTree, word: &str) -> bool {
    matches!(token, TokenTree::Ident(i) if i.to_string() == word)
}

/// Parts between the commas that stand outside every pair of angle brackets.
fn split_at_commas(tokens: &[TokenTree]) -> Vec<Vec<TokenTree>> {
    let mut parts = vec![Vec::new()];
    let mut depth = 0;
    let mut after_dash = false;
    for token in tokens {
        if is_punct(token, '<') {
            depth += 1;
        } else if is_punct(token, '>') && !after_dash {
            depth -= 1;
        }
        after_dash = is_punct(token, '-');
        if depth == 0 && is_punct(token, ',') {
            parts.push(Vec::new());
        } else {
            parts.last_mut().unwrap().push(token.clone());
        }
    }
    parts.retain(|part| !part.is_empty());
    parts
}

/// Without attributes and visibility in front.
fn bare(mut tokens: &[TokenTree]) -> &[TokenTree] {
    loop {
        match tokens {
            [hash, TokenTree::Group(_), rest @ ..] if is_punct(hash, '#') => tokens = rest,
            [word, TokenTree::Group(g), rest @ ..]
                if is_ident(word, "pub") && g.delimiter() == Delimiter::Parenthesis =>
            {
                tokens = rest;
            }
            [word, rest @ ..] if is_ident(word, "pub") => tokens = rest,
            _ => return tokens,
        }
    }
}

fn param(tokens: &[TokenTree]) -> (String, String) {
    let end = tokens.iter().position(|t| is_punct(t, '=')).unwrap_or(tokens.len());
    let declared = text(&tokens[..end]);
    let argument = match tokens {
        [quote, name, ..] if is_punct(quote, '\'') => format!("'{name}"),
        [word, name, ..] if is_ident(word, "const") => name.to_string(),
        [name, ..] => name.to_string(),
        [] => unreachable!(),
    };
    (declared, argument)
}

fn parse(stream: TokenStream) -> Item {
    let tokens: Vec<TokenTree> = stream.into_iter().collect();
    let mut rest = bare(&tokens);
    let is_struct = is_ident(&rest[0], "struct");
    let name = rest[1].to_string();
    rest = &rest[2..];
    let mut params = Vec::new();
    if rest.first().is_some_and(|t| is_punct(t, '<')) {
        let mut depth = 0;
        let end = rest
            .iter()
            .position(|t| {
                depth += i32::from(is_punct(t, '<')) - i32::from(is_punct(t, '>'));
                depth == 0
            })
            .expect("a closing bracket");
        params = split_at_commas(&rest[1..end]).iter().map(|p| param(p)).collect();
        rest = &rest[end + 1..];
    }
    let body =
        rest.iter().position(|t| matches!(t, TokenTree::Group(g) if g.delimiter() == Delimiter::Brace));
    // After the fields in a tuple struct, ahead of them otherwise.
    let wheres = match rest.iter().position(|t| is_ident(t, "where")) {
        Some(at) => {
            let clause = &rest[at..];
            let end = clause
                .iter()
                .position(|t| {
                    is_punct(t, ';') || matches!(t, TokenTree::Group(g) if g.delimiter() == Delimiter::Brace)
                })
                .unwrap_or(clause.len());
            text(&clause[..end])
        }
        None => String::new(),
    };
    let mut fields = Vec::new();
    if let (true, Some(TokenTree::Group(group))) = (is_struct, body.map(|at| &rest[at])) {
        let inner: Vec<TokenTree> = group.stream().into_iter().collect();
        for field in split_at_commas(&inner) {
            let field = bare(&field);
            fields.push((field[0].to_string(), text(&field[2..])));
        }
    }
    let (declared, arguments): (Vec<_>, Vec<_>) = params.into_iter().unzip();
    Item { name, params: declared.join(", "), args: arguments.join(", "), wheres, fields }
}

fn debug_impl(item: &Item) -> String {
    let Item { name, params, args, wheres, .. } = item;
    format!(
        "impl<{params}> ::core::fmt::Debug for {name}<{args}> {wheres} {{
            fn fmt(&self, f: &mut ::core::fmt::Formatter<'_>) -> ::core::fmt::Result {{
                f.write_str(\"{name}\")
            }}
        }}"
    )
}

#[proc_macro_derive(Debug)]
pub fn debug(stream: TokenStream) -> TokenStream {
    let item = parse(stream);
    let mut code = debug_impl(&item);
    let Item { name, params, args, wheres, fields } = &item;
    let readers: String = fields
        .iter()
        .map(|(field, ty)| format!("pub fn field_{field}(&self) -> &{ty} {{ &self.{field} }}"))
        .collect();
    code += &format!("#[allow(dead_code)] impl<{params}> {name}<{args}> {wheres} {{ {readers} }}");
    code.parse().expect("well-formed readers")
}

#[proc_macro_derive(Serialize, attributes(serde))]
pub fn serialize(_: TokenStream) -> TokenStream {
    TokenStream::new()
}

#[proc_macro_derive(Deserialize, attributes(serde))]
pub fn deserialize(_: TokenStream) -> TokenStream {
    TokenStream::new()
}

/// `derive_where(Default, Debug)`: both traits, with no bound on the parameters.
#[proc_macro_attribute]
pub fn derive_where(_: TokenStream, stream: TokenStream) -> TokenStream {
    let item = parse(stream.clone());
    let Item { name, params, args, wheres, fields } = &item;
    let values: String =
        fields.iter().map(|(field, _)| format!("{field}: ::core::default::Default::default(),")).collect();
    let mut code = debug_impl(&item);
    code += &format!(
        "impl<{params}> ::core::default::Default for {name}<{args}> {wheres} {{
            fn default() -> Self {{ {name} {{ {values} }} }}
        }}"
    );
    let mut out = stream;
    out.extend(code.parse::<TokenStream>().expect("well-formed impls"));
    out
}
