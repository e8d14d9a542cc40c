//! `#[interface]`.

use proc_macro2::{Ident, TokenStream};
use quote::{format_ident, quote, quote_spanned};
use syn::ext::IdentExt;
use syn::{
    Attribute, Error, FnArg, GenericArgument, Item, ItemTrait, LitInt, Pat, PatIdent, PatType,
    PathArguments, Receiver, Result, ReturnType, TraitItem, TraitItemMethod, Type, parse_quote,
    parse2, spanned::Spanned,
};

/// Methods that a `Remote` has by itself or as everything has, so that an interface's would never be found.
const TAKEN: [&str; 12] = [
    "owner",
    "is_mine",
    "cast",
    "invoke",
    "try_invoke",
    "clone",
    "clone_from",
    "eq",
    "ne",
    "into",
    "try_into",
    "to_owned",
];

struct Method {
    number: u16,
    name: Ident,
    docs: Vec<Attribute>,
    has_context: bool,
    is_async: bool,
    names: Vec<Ident>,
    types: Vec<Type>,
    answer: Type,
}

pub fn expand(arguments: TokenStream, item: TokenStream) -> Result<TokenStream> {
    if !arguments.is_empty() {
        return Err(Error::new(arguments.span(), "#[interface] takes no arguments"));
    }
    let mut item = trait_of(parse2(item)?)?;
    judge(&item)?;
    let methods = methods_of(&mut item)?;
    item.supertraits.push(parse_quote!(::core::marker::Send));
    item.supertraits.push(parse_quote!('static));
    let boxed = boxed(&mut item, &methods);
    let (passed, served) = (passed(&methods), served(&item, &methods));
    let stub = stub(&item, &methods);
    Ok(quote! { #item #boxed #passed #served #stub })
}

fn trait_of(item: Item) -> Result<ItemTrait> {
    match item {
        Item::Trait(item) => Ok(item),
        other => {
            let text = "#[interface] stands at a trait: what implements it needs no attribute";
            Err(Error::new(other.span(), text))
        }
    }
}

fn judge(item: &ItemTrait) -> Result<()> {
    if !item.generics.params.is_empty() || item.generics.where_clause.is_some() {
        return Err(Error::new(
            item.generics.span(),
            "an interface has no generics: what goes to another process has one type",
        ));
    }
    if let Some(unsafety) = &item.unsafety {
        return Err(Error::new(unsafety.span(), "an interface isn't unsafe"));
    }
    Ok(())
}

fn methods_of(item: &mut ItemTrait) -> Result<Vec<Method>> {
    let mut methods: Vec<Method> = Vec::new();
    let mut next = 0;
    for entry in &mut item.items {
        let TraitItem::Method(method) = entry else {
            return Err(Error::new(entry.span(), "an interface has methods and nothing else"));
        };
        let number = number_of(method)?.unwrap_or(next);
        if methods.iter().any(|other| other.number == number) {
            let text = format!("another method has the number {number}");
            return Err(Error::new(method.sig.ident.span(), text));
        }
        next = number.wrapping_add(1);
        methods.push(method_of(number, method)?);
    }
    for Method { name, .. } in &methods {
        let tried = tried(name);
        if let Some(other) = methods.iter().find(|other| other.name == tried) {
            let text = format!("a Remote has {tried} beside {name}: give this method another name");
            return Err(Error::new(other.name.span(), text));
        }
    }
    Ok(methods)
}

// The name of what calls a method at once or not at all.
fn tried(name: &Ident) -> Ident {
    format_ident!("try_{}", name.unraw())
}

// The number that `#[method(7)]` says, which is taken away.
fn number_of(method: &mut TraitItemMethod) -> Result<Option<u16>> {
    let Some(place) = method.attrs.iter().position(|attribute| attribute.path.is_ident("method"))
    else {
        return Ok(None);
    };
    let attribute = method.attrs.remove(place);
    let number: LitInt = attribute
        .parse_args()
        .map_err(|error| Error::new(error.span(), "a method's number is wanted: #[method(7)]"))?;
    number.base10_parse().map(Some)
}

fn method_of(number: u16, method: &TraitItemMethod) -> Result<Method> {
    let signature = &method.sig;
    let name = signature.ident.clone();
    let refuse = |span, text: &str| Err(Error::new(span, text));
    if TAKEN.iter().any(|taken| name == taken) {
        let text = format!("a Remote has a method {name} of its own: give this one another name");
        return refuse(name.span(), &text);
    }
    if let Some(default) = &method.default {
        return refuse(
            default.span(),
            "a method of an interface has no body: it runs where the object is",
        );
    }
    if signature.unsafety.is_some() || signature.abi.is_some() {
        let text = "a method of an interface isn't unsafe, and has no ABI of its own";
        return refuse(signature.span(), text);
    }
    if !signature.generics.params.is_empty() || signature.generics.where_clause.is_some() {
        return refuse(signature.generics.span(), "a method of an interface has no generics");
    }
    let mut inputs = signature.inputs.iter();
    match inputs.next() {
        Some(FnArg::Receiver(Receiver {
            reference: Some((_, None)), mutability: Some(_), ..
        })) => {}
        other => {
            let span = other.map_or(signature.span(), Spanned::span);
            return refuse(
                span,
                "a method of an interface takes &mut self: an object runs one call at a time",
            );
        }
    }
    let mut parameters = inputs.map(parameter_of).collect::<Result<Vec<_>>>()?;
    let has_context = parameters.first().is_some_and(|(_, kind)| is_context(kind));
    if has_context {
        parameters.remove(0);
    }
    for (_, kind) in &parameters {
        if is_context(kind) {
            return refuse(kind.span(), "the context stands first, behind &mut self");
        }
        owned(kind)?;
    }
    if parameters.len() > 8 {
        return refuse(
            signature.inputs.span(),
            "a method takes eight arguments at most: pass a struct",
        );
    }
    let answer = match &signature.output {
        ReturnType::Default => parse_quote!(()),
        ReturnType::Type(_, kind) => (**kind).clone(),
    };
    owned(&answer)?;
    let docs = method.attrs.iter().filter(|attribute| attribute.path.is_ident("doc"));
    let docs = docs.cloned().collect();
    let (names, types) = parameters.into_iter().unzip();
    let is_async = signature.asyncness.is_some();
    Ok(Method { number, name, docs, has_context, is_async, names, types, answer })
}

// The name of an async method's form that objects have.
fn boxed_name(name: &Ident) -> Ident {
    format_ident!("__boxed_{}", name.unraw())
}

// A trait with async methods has no objects. So they stay out of those, as methods of what has a size, which
// implementations write as `async fn`; and a trait above it, which every implementation of it has, gives
// objects the same methods with their futures in boxes.
fn boxed(item: &mut ItemTrait, methods: &[Method]) -> TokenStream {
    let all: Vec<&Method> = methods.iter().filter(|method| method.is_async).collect();
    if all.is_empty() {
        return TokenStream::new();
    }
    for entry in &mut item.items {
        if let TraitItem::Method(method) = entry
            && method.sig.asyncness.take().is_some()
        {
            let answer = match &method.sig.output {
                ReturnType::Default => parse_quote!(()),
                ReturnType::Type(_, kind) => (**kind).clone(),
            };
            method.sig.output = parse_quote! {
                -> impl ::core::future::Future<Output = #answer> + ::core::marker::Send
            };
            method.sig.generics.where_clause =
                Some(parse_quote!(where Self: ::core::marker::Sized));
        }
    }
    let (name, visibility) = (&item.ident, &item.vis);
    let above = format_ident!("__{}Boxed", name.unraw());
    item.supertraits.push(parse_quote!(#above));
    let heads: Vec<TokenStream> = all
        .iter()
        .map(|Method { name, has_context, names, types, answer, .. }| {
            let boxed = boxed_name(name);
            let context = has_context.then(|| quote!(__context: &'__a ::masttomato::Context,));
            quote! {
                fn #boxed<'__a>(
                    &'__a mut self, #context #(#names: #types),*
                ) -> ::masttomato::macros::Boxed<'__a, #answer>
            }
        })
        .collect();
    let bodies = all.iter().map(|method| {
        let Method { name: method, has_context, names, .. } = method;
        let context = has_context.then(|| quote!(__context,));
        quote! { ::std::boxed::Box::pin(<__Object as #name>::#method(self, #context #(#names),*)) }
    });
    quote! {
        #[doc(hidden)]
        #visibility trait #above { #(#heads;)* }

        #[doc(hidden)]
        impl<__Object: #name> #above for __Object {
            #(#heads { #bodies })*
        }
    }
}

fn parameter_of(input: &FnArg) -> Result<(Ident, Type)> {
    match input {
        FnArg::Typed(PatType { pat, ty, .. }) => match &**pat {
            Pat::Ident(PatIdent { ident, by_ref: None, subpat: None, .. }) => {
                Ok((ident.clone(), (**ty).clone()))
            }
            _ => Err(Error::new(pat.span(), "an argument has a plain name here")),
        },
        FnArg::Receiver(receiver) => Err(Error::new(receiver.span(), "self stands first")),
    }
}

fn is_context(kind: &Type) -> bool {
    let Type::Reference(reference) = kind else { return false };
    let Type::Path(path) = &*reference.elem else { return false };
    path.path.segments.last().is_some_and(|segment| segment.ident == "Context")
}

fn owned(kind: &Type) -> Result<()> {
    let text = match kind {
        Type::Reference(_) => {
            "what goes to another process is owned: write String for &str, Vec<T> for &[T], \
             and Remote<dyn Trait> for an object"
        }
        Type::ImplTrait(_) => "what goes to another process has one type: name it",
        _ if is_boxed_object(kind) => {
            "an object goes by reference: write Remote<dyn Trait> for Box<dyn Trait>"
        }
        _ => return Ok(()),
    };
    Err(Error::new(kind.span(), text))
}

// `Box<dyn Trait>`, or something like it.
fn is_boxed_object(kind: &Type) -> bool {
    let Type::Path(path) = kind else { return matches!(kind, Type::TraitObject(_)) };
    let Some(PathArguments::AngleBracketed(arguments)) =
        path.path.segments.last().map(|segment| &segment.arguments)
    else {
        return false;
    };
    let is_box = path.path.segments.last().is_some_and(|segment| segment.ident != "Remote");
    let is_object = |argument: &GenericArgument| {
        matches!(argument, GenericArgument::Type(Type::TraitObject(_)))
    };
    is_box && arguments.args.iter().any(is_object)
}

// Says of each type that it can be passed, at its own place in the source.
fn passed(methods: &[Method]) -> TokenStream {
    let all = methods.iter().flat_map(|method| method.types.iter().chain([&method.answer]));
    all.map(|kind| {
        quote_spanned! { kind.span() =>
            const _: fn() = || {
                fn can_be_passed<T: ::masttomato::Pass>() {}
                can_be_passed::<#kind>();
            };
        }
    })
    .collect()
}

// What carries a call out, by the method's number.
fn served(item: &ItemTrait, methods: &[Method]) -> TokenStream {
    let name = &item.ident;
    let (later, now): (Vec<&Method>, Vec<&Method>) =
        methods.iter().partition(|method| method.is_async);
    let arms = now.iter().map(|Method { number, name, has_context, names, types, .. }| {
        let context = has_context.then(|| quote!(__context,));
        quote! {
            #number => match __arguments.take::<(#(#types,)*)>() {
                ::core::result::Result::Ok((#(#names,)*)) => {
                    ::masttomato::macros::Served::answer(self.#name(#context #(#names),*))
                }
                ::core::result::Result::Err(__refused) => __refused,
            },
        }
    });
    let later = served_later(&later);
    let (text, checksum) = (name.unraw().to_string(), checksum(methods));
    quote! {
        impl ::masttomato::Interface for dyn #name {
            const NAME: &'static str = #text;
            const CHECKSUM: u64 = #checksum;

            #[allow(unused_variables)]
            fn serve(
                &mut self,
                __method: u16,
                __arguments: ::masttomato::macros::Arguments,
                __context: &::masttomato::Context,
            ) -> ::masttomato::macros::Served {
                match __method {
                    #(#arms)*
                    _ => ::masttomato::macros::Served::NoMethod,
                }
            }

            #later
        }
    }
}

// What carries a call of an async method out.
fn served_later(methods: &[&Method]) -> TokenStream {
    if methods.is_empty() {
        return TokenStream::new();
    }
    let numbers = methods.iter().map(|method| method.number);
    let arms = methods.iter().map(|Method { number, name, has_context, names, types, .. }| {
        let (name, context) = (boxed_name(name), has_context.then(|| quote!(__context,)));
        quote! {
            #number => match __arguments.take::<(#(#types,)*)>() {
                ::core::result::Result::Ok((#(#names,)*)) => ::std::boxed::Box::pin(async move {
                    ::masttomato::macros::Served::answer(self.#name(#context #(#names),*).await)
                }),
                ::core::result::Result::Err(__refused) => {
                    ::std::boxed::Box::pin(::core::future::ready(__refused))
                }
            },
        }
    });
    quote! {
        fn is_async(__method: u16) -> bool {
            ::core::matches!(__method, #(#numbers)|*)
        }

        #[allow(unused_variables)]
        fn serve_async<'__a>(
            &'__a mut self,
            __method: u16,
            __arguments: ::masttomato::macros::Arguments,
            __context: &'__a ::masttomato::Context,
        ) -> ::masttomato::macros::Boxed<'__a, ::masttomato::macros::Served> {
            match __method {
                #(#arms)*
                _ => ::std::boxed::Box::pin(::core::future::ready(
                    ::masttomato::macros::Served::NoMethod,
                )),
            }
        }
    }
}

// The methods that a remote object has.
fn stub(item: &ItemTrait, methods: &[Method]) -> TokenStream {
    let (name, visibility) = (&item.ident, &item.vis);
    let stub = format_ident!("{name}Stub");
    let heads = methods.iter().map(|Method { docs, name, names, types, answer, .. }| {
        let tried = tried(name);
        let text = format!(
            "[`{name}`](Self::{name}) at once or not at all: `CallError::Busy` where there is no room for it."
        );
        quote! {
            #(#docs)*
            fn #name(&self, #(#names: #types),*) -> ::masttomato::Call<#answer>;

            #[doc = #text]
            fn #tried(&self, #(#names: #types),*) -> ::masttomato::Call<#answer>;
        }
    });
    let bodies = methods.iter().map(|Method { number, name, names, types, answer, .. }| {
        let tried = tried(name);
        quote! {
            fn #name(&self, #(#names: #types),*) -> ::masttomato::Call<#answer> {
                self.invoke::<(#(#types,)*), #answer>(#number, (#(#names,)*))
            }

            fn #tried(&self, #(#names: #types),*) -> ::masttomato::Call<#answer> {
                self.try_invoke::<(#(#types,)*), #answer>(#number, (#(#names,)*))
            }
        }
    });
    let docs = format!(
        "The methods of `Remote<dyn {name}>`: each is a call, to be waited for or awaited. Where as many calls \
         are open as may be, one waits to be made; those that begin with `try_` don't."
    );
    quote! {
        #[doc = #docs]
        #visibility trait #stub {
            #(#heads)*
        }

        impl #stub for ::masttomato::Remote<dyn #name> {
            #(#bodies)*
        }
    }
}

// A number of the methods' signatures, without the names of arguments.
fn checksum(methods: &[Method]) -> u64 {
    let mut sum = 0xcbf2_9ce4_8422_2325_u64;
    for Method { number, name, types, answer, .. } in methods {
        let text = quote!(#number #name (#(#types),*) -> #answer).to_string();
        for byte in text.bytes().filter(|byte| !byte.is_ascii_whitespace()) {
            sum = (sum ^ u64::from(byte)).wrapping_mul(0x0000_0100_0000_01b3);
        }
    }
    sum
}
