//! Stand-in for thiserror: `Display` and `Error` for an enum of unit and tuple
//! variants, each with `#[error("..")]`. A `{1}` in the text is field 1.

use proc_macro::{Delimiter, TokenStream, TokenTree};

/// The text of an `error("..")` attribute, quotes included.
fn error_text(attribute: TokenStream) -> Option<String> {
    let mut tokens = attribute.into_iter();
    match tokens.next()? {
        TokenTree::Ident(name) if name.to_string() == "error" => {}
        _ => return None,
    }
    match tokens.next()? {
        TokenTree::Group(g) => Some(g.stream().to_string()),
        _ => None,
    }
}

/// Number of fields of a tuple variant. Commas inside `<..>` don't occur.
fn fields(group: TokenStream) -> usize {
    let mut count = 0;
    let mut pending = false;
    for t in group {
        match t {
            TokenTree::Punct(p) if p.as_char() == ',' => {
                count += pending as usize;
                pending = false;
            }
            _ => pending = true,
        }
    }
    count + pending as usize
}

#[proc_macro_derive(Error, attributes(error))]
pub fn derive_error(input: TokenStream) -> TokenStream {
    let mut name = None;
    let mut body = None;
    let mut after_enum = false;
    for t in input {
        match t {
            TokenTree::Ident(i) if after_enum && name.is_none() => name = Some(i.to_string()),
            TokenTree::Ident(i) if i.to_string() == "enum" => after_enum = true,
            TokenTree::Group(g) if g.delimiter() == Delimiter::Brace => body = Some(g.stream()),
            _ => {}
        }
    }
    let name = name.expect("an enum's name");

    let mut arms = String::new();
    let mut text = None;
    let mut tokens = body.expect("an enum's body").into_iter().peekable();
    while let Some(t) = tokens.next() {
        match t {
            TokenTree::Group(g) if g.delimiter() == Delimiter::Bracket => {
                if let Some(found) = error_text(g.stream()) {
                    text = Some(found);
                }
            }
            TokenTree::Ident(variant) => {
                let mut text = text.take().expect("an error text for each variant");
                let mut binders = String::new();
                if let Some(TokenTree::Group(g)) = tokens.peek()
                    && g.delimiter() == Delimiter::Parenthesis
                {
                    let names: Vec<String> = (0..fields(g.stream()))
                        .map(|i| {
                            let mark = format!("{{{i}}}");
                            if text.contains(&mark) {
                                text = text.replace(&mark, &format!("{{field_{i}}}"));
                                format!("field_{i}")
                            } else {
                                "_".to_string()
                            }
                        })
                        .collect();
                    binders = format!("({})", names.join(", "));
                    tokens.next();
                }
                arms += &format!("{name}::{variant}{binders} => write!(f, {text}),\n");
            }
            _ => {}
        }
    }
    format!(
        "impl std::fmt::Display for {name} {{
            fn fmt(&self, f: &mut std::fmt::Formatter<'_>) -> std::fmt::Result {{
                match self {{ {arms} }}
            }}
        }}
        impl std::error::Error for {name} {{}}"
    )
    .parse()
    .expect("generated code")
}
