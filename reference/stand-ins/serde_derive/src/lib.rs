//! Stand-in: `Serialize` of a struct writes its fields in order; of an enum it is not needed and stops.

use proc_macro::{Delimiter, TokenStream, TokenTree};

#[proc_macro_derive(Deserialize)]
pub fn deserialize(_item: TokenStream) -> TokenStream {
    TokenStream::new()
}

#[proc_macro_derive(Serialize)]
pub fn serialize(item: TokenStream) -> TokenStream {
    let item = Item::read(item);
    let (mut bounds, mut body) = (String::new(), String::new());
    for (name, sort) in &item.fields {
        bounds += &format!("{sort}: ::serde::Serialize,");
        body += &format!("::serde::Serialize::put(&self.{name}, out);");
    }
    if item.is_enum {
        body = "unimplemented!()".into();
    }
    let Item { name, parameters, arguments, .. } = item;
    format!(
        "impl<{parameters}> ::serde::Serialize for {name}<{arguments}> where {bounds} {{
            #[allow(unused_variables)]
            fn put(&self, out: &mut Vec<u8>) {{ {body} }}
        }}"
    )
    .parse()
    .unwrap()
}

/// A struct or enum: its name, its type parameters with and without their bounds, and its fields with their types.
struct Item {
    is_enum: bool,
    name: String,
    parameters: String,
    arguments: String,
    fields: Vec<(String, String)>,
}

impl Item {
    fn read(item: TokenStream) -> Item {
        let mut tokens = item.into_iter().peekable();
        let is_enum = loop {
            match tokens.next().unwrap().to_string().as_str() {
                "struct" => break false,
                "enum" => break true,
                _ => {}
            }
        };
        let name = tokens.next().unwrap().to_string();
        let mut parameters = Vec::new();
        if tokens.peek().is_some_and(|token| token.to_string() == "<") {
            tokens.next();
            parameters = parts(tokens.by_ref().take_while(|token| token.to_string() != ">"));
        }
        let arguments = parameters.iter().map(|p| p[0].to_string()).collect::<Vec<_>>();
        let body = tokens.find_map(|token| match token {
            TokenTree::Group(group) if group.delimiter() != Delimiter::Bracket => Some(group),
            _ => None,
        });
        let mut fields = Vec::new();
        if let (false, Some(body)) = (is_enum, body) {
            let named = body.delimiter() == Delimiter::Brace;
            for (i, part) in parts(body.stream().into_iter()).iter().enumerate() {
                let colon = part.iter().position(|token| token.to_string() == ":");
                match colon {
                    Some(colon) if named => fields.push((part[colon - 1].to_string(), text(&part[colon + 1..]))),
                    _ => fields.push((i.to_string(), text(&part[(part[0].to_string() == "pub") as usize..]))),
                }
            }
        }
        Item {
            is_enum,
            name,
            parameters: parameters.iter().map(|p| text(p)).collect::<Vec<_>>().join(","),
            arguments: arguments.join(","),
            fields,
        }
    }
}

/// The parts between commas that stand in no angle brackets.
fn parts(tokens: impl Iterator<Item = TokenTree>) -> Vec<Vec<TokenTree>> {
    let (mut parts, mut depth) = (vec![Vec::new()], 0);
    for token in tokens {
        match token.to_string().as_str() {
            "," if depth == 0 => {
                parts.push(Vec::new());
                continue;
            }
            "<" => depth += 1,
            ">" => depth -= 1,
            _ => {}
        }
        parts.last_mut().unwrap().push(token);
    }
    parts.retain(|part| !part.is_empty());
    parts
}

fn text(tokens: &[TokenTree]) -> String {
    tokens.iter().cloned().collect::<TokenStream>().to_string()
}
