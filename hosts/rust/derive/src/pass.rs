//! `#[derive(Pass)]`.

use proc_macro2::{Ident, TokenStream};
use quote::{format_ident, quote};
use syn::{Data, DeriveInput, Error, Fields, Result, parse2, spanned::Spanned};

pub fn expand(item: TokenStream) -> Result<TokenStream> {
    let item: DeriveInput = parse2(item)?;
    if !item.generics.params.is_empty() {
        return Err(Error::new(
            item.generics.span(),
            "what is passed has no generics here: write the types out, or implement Pass by hand",
        ));
    }
    let name = &item.ident;
    let (pack, unpack) = match &item.data {
        Data::Struct(data) => of_struct(&data.fields),
        Data::Enum(data) => {
            let variants: Vec<_> = data.variants.iter().map(|it| (&it.ident, &it.fields)).collect();
            of_enum(&variants)
        }
        Data::Union(data) => {
            let text = "a union can't be passed: which of its fields is there isn't known";
            return Err(Error::new(data.union_token.span(), text));
        }
    };
    Ok(quote! {
        impl ::masttomato::Pass for #name {
            #[allow(unused_variables)]
            fn pack(self, packer: &mut ::masttomato::Packer) -> ::masttomato::macros::Value {
                #pack
            }

            #[allow(unused_variables)]
            fn unpack(
                value: ::masttomato::macros::Value,
                unpacker: &::masttomato::Unpacker,
            ) -> ::core::result::Result<Self, ::masttomato::NotPassed> {
                #unpack
            }
        }
    })
}

// The names that fields are bound to, and a pattern, or an expression, that has them.
fn bound(path: &TokenStream, fields: &Fields) -> (Vec<Ident>, TokenStream) {
    let names: Vec<Ident> = (0..fields.len()).map(|place| format_ident!("field_{place}")).collect();
    let pattern = match fields {
        Fields::Named(fields) => {
            let labels = fields.named.iter().map(|field| &field.ident);
            quote! { #path { #(#labels: #names),* } }
        }
        Fields::Unnamed(_) => quote! { #path(#(#names),*) },
        Fields::Unit => path.clone(),
    };
    (names, pattern)
}

// Takes each field out of a list, and says that there is no more.
fn taken(names: &[Ident], fields: &Fields) -> TokenStream {
    let types = fields.iter().map(|field| &field.ty);
    quote! {
        #(let #names = <#types as ::masttomato::Pass>::unpack(
            values.next().ok_or(::masttomato::NotPassed)?,
            unpacker,
        )?;)*
        if values.next().is_some() {
            return ::core::result::Result::Err(::masttomato::NotPassed);
        }
    }
}

fn of_struct(fields: &Fields) -> (TokenStream, TokenStream) {
    let (names, pattern) = bound(&quote!(Self), fields);
    let taken = taken(&names, fields);
    let pack = quote! {
        let #pattern = self;
        ::masttomato::macros::Value::List(::std::vec![#(::masttomato::Pass::pack(#names, packer)),*])
    };
    let unpack = quote! {
        let mut values = ::masttomato::macros::list_of(value)?.into_iter();
        #taken
        ::core::result::Result::Ok(#pattern)
    };
    (pack, unpack)
}

// An enum is the list of its variant's number and the variant's fields.
fn of_enum(variants: &[(&Ident, &Fields)]) -> (TokenStream, TokenStream) {
    let numbered = || variants.iter().enumerate().map(|(number, variant)| (number as i64, variant));
    let packs = numbered().map(|(number, (name, fields))| {
        let (names, pattern) = bound(&quote!(Self::#name), fields);
        quote! {
            #pattern => ::masttomato::macros::Value::List(::std::vec![
                ::masttomato::macros::Value::Int(#number),
                #(::masttomato::Pass::pack(#names, packer)),*
            ]),
        }
    });
    let unpacks = numbered().map(|(number, (name, fields))| {
        let (names, made) = bound(&quote!(Self::#name), fields);
        let taken = taken(&names, fields);
        quote! {
            ::core::option::Option::Some(::masttomato::macros::Value::Int(#number)) => {
                #taken
                ::core::result::Result::Ok(#made)
            }
        }
    });
    let pack = quote! { match self { #(#packs)* } };
    let unpack = quote! {
        let mut values = ::masttomato::macros::list_of(value)?.into_iter();
        match values.next() {
            #(#unpacks)*
            _ => ::core::result::Result::Err(::masttomato::NotPassed),
        }
    };
    (pack, unpack)
}
