//! Stand-in for bytemuck's derives, for structs with named fields and no
//! generics. Like the crate's, they refuse a field that lacks the trait, and
//! Pod also refuses a struct with padding.

use proc_macro::{Delimiter, TokenStream, TokenTree};

#[proc_macro_derive(Zeroable)]
pub fn derive_zeroable(input: TokenStream) -> TokenStream {
    let item = Struct::read(input);
    format!(
        "{}\nunsafe impl ::bytemuck::Zeroable for {} {{}}",
        item.fields_have("Zeroable"),
        item.name
    )
    .parse()
    .expect("the derived text is Rust")
}

#[proc_macro_derive(Pod)]
pub fn derive_pod(input: TokenStream) -> TokenStream {
    let item = Struct::read(input);
    let sizes: Vec<String> =
        item.types.iter().map(|t| format!("::core::mem::size_of::<{t}>()")).collect();
    format!(
        "{}\nconst _: () = assert!(::core::mem::size_of::<{}>() == {});\n\
         unsafe impl ::bytemuck::Pod for {} {{}}",
        item.fields_have("Pod"),
        item.name,
        sizes.join(" + "),
        item.name
    )
    .parse()
    .expect("the derived text is Rust")
}

struct Struct {
    name: String,
    types: Vec<String>,
}

impl Struct {
    fn read(input: TokenStream) -> Self {
        let mut tokens = input.into_iter();
        tokens.find(|t| t.to_string() == "struct").expect("a struct");
        let name = tokens.next().expect("the struct's name").to_string();
        let body = tokens
            .find_map(|t| match t {
                TokenTree::Group(g) if g.delimiter() == Delimiter::Brace => Some(g.stream()),
                _ => None,
            })
            .expect("named fields");
        Self { name, types: field_types(body) }
    }

    /// A constant that compiles only if every field's type has the trait.
    fn fields_have(&self, name: &str) -> String {
        let calls: Vec<String> = self.types.iter().map(|t| format!("has::<{t}>();")).collect();
        format!(
            "const _: fn() = || {{ fn has<T: ::bytemuck::{name}>() {{}} {} }};",
            calls.join(" ")
        )
    }
}

/// What stands between each field's colon and the comma after it.
fn field_types(body: TokenStream) -> Vec<String> {
    let mut types = Vec::new();
    let mut current: Option<String> = None;
    for token in body {
        match token.to_string().as_str() {
            ":" if current.is_none() => current = Some(String::new()),
            "," => types.extend(current.take()),
            text => {
                if let Some(t) = &mut current {
                    t.push_str(text);
                }
            }
        }
    }
    types.extend(current.take());
    types
}
