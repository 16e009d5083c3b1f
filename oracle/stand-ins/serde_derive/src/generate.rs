//! The generated code. A field is written by its own `Serialize`, or by the function that
//! `serialize_with` names.

use crate::parse::{Body, Field, Fields, Item, Variant};

pub fn serialize(item: &Item) -> String {
    let body = match &item.body {
        Body::Struct(fields) => {
            let open: String =
                fields.iter().map(|f| format!("let {0} = &self.{0};", f.name)).collect();
            format!("{open} {}", write_parts("serialize_parts()", fields))
        }
        Body::Enum(variants) => {
            let arms: String = variants.iter().enumerate().map(write_variant).collect();
            format!("match self {{ {arms} }}")
        }
    };
    format!(
        "impl {generics} ::serde::Serialize for {name} {generics} {{
            fn serialize<S: ::serde::Serializer>(&self, serializer: S)
                -> ::core::result::Result<S::Ok, S::Error> {{ {body} }}
        }}",
        generics = item.generics,
        name = item.name,
    )
}

pub fn deserialize(item: &Item) -> String {
    let body = match &item.body {
        Body::Struct(fields) => {
            format!("::core::result::Result::Ok(Self {{ {} }})", read_named(fields))
        }
        Body::Enum(variants) => {
            let arms: String = variants.iter().enumerate().map(read_variant).collect();
            format!(
                "match source.read_variant()? {{
                    {arms}
                    number => ::core::result::Result::Err(source.unknown_variant(number)),
                }}"
            )
        }
    };
    format!(
        "impl {generics} ::serde::Deserialize for {name} {generics} {{
            fn deserialize<D: ::serde::Deserializer>(source: &mut D)
                -> ::core::result::Result<Self, D::Error> {{ {body} }}
        }}",
        generics = item.generics,
        name = item.name,
    )
}

fn write_variant((number, variant): (usize, &Variant)) -> String {
    let (pattern, fields): (String, &[Field]) = match &variant.fields {
        Fields::None => (String::new(), &[]),
        Fields::Unnamed(fields) => (format!("({})", names(fields)), fields),
        Fields::Named(fields) => (format!("{{ {} }}", names(fields)), fields),
    };
    let parts = write_parts(&format!("serialize_variant({number})"), fields);
    format!("Self::{} {pattern} => {{ {parts} }}", variant.name)
}

/// Writes fields that are bound to their names as references.
fn write_parts(open: &str, fields: &[Field]) -> String {
    let parts: String = fields.iter().map(write_field).collect();
    let mutable = if fields.is_empty() { "" } else { "mut" };
    format!("let {mutable} parts = serializer.{open}?; {parts} ::serde::Parts::end(parts)")
}

fn write_field(field: &Field) -> String {
    let Field { name, kind, serialize_with } = field;
    match serialize_with {
        None => format!("::serde::Parts::part(&mut parts, {name})?;"),
        Some(path) => format!(
            "{{
                struct With<'with>(&'with {kind});
                impl ::serde::Serialize for With<'_> {{
                    fn serialize<S: ::serde::Serializer>(&self, serializer: S)
                        -> ::core::result::Result<S::Ok, S::Error> {{ {path}(self.0, serializer) }}
                }}
                ::serde::Parts::part(&mut parts, &With({name}))?;
            }}"
        ),
    }
}

fn read_variant((number, variant): (usize, &Variant)) -> String {
    let fields = match &variant.fields {
        Fields::None => String::new(),
        Fields::Unnamed(fields) => format!("({})", format!("{READ},").repeat(fields.len())),
        Fields::Named(fields) => format!("{{ {} }}", read_named(fields)),
    };
    format!("{number} => ::core::result::Result::Ok(Self::{} {fields}),", variant.name)
}

fn read_named(fields: &[Field]) -> String {
    fields.iter().map(|field| format!("{}: {READ},", field.name)).collect()
}

const READ: &str = "::serde::Deserialize::deserialize(source)?";

fn names(fields: &[Field]) -> String {
    fields.iter().map(|field| format!("{},", field.name)).collect()
}
