//! The macros of masttomato, which hands them on, with examples: `#[interface]` and `#[derive(Pass)]`.

mod interface;
mod pass;

use proc_macro::TokenStream;

/// Makes a trait an interface: its objects, `Box<dyn Trait>`, can be exported, and `Remote<dyn Trait>`
/// has its methods, by the trait `TraitStub` that is written beside it.
///
/// The methods take `&mut self` and owned arguments that are `Pass`; a first parameter of type `&Context`
/// is the call's, which callers don't give. Methods are numbered from 0 in order, or from the number that
/// `#[method(7)]` says: numbers are the protocol, so whoever removes a method numbers those behind it.
///
/// A method may be an `async fn`, whose future is `Send`: it takes no thread while it waits, but its object,
/// which runs one call at a time. Whether it is one makes no difference to callers.
#[proc_macro_attribute]
pub fn interface(arguments: TokenStream, item: TokenStream) -> TokenStream {
    interface::expand(arguments.into(), item.into())
        .unwrap_or_else(|error| error.to_compile_error())
        .into()
}

/// Lets a struct or an enum be passed to other spaces and answered, where all that is in it can be.
#[proc_macro_derive(Pass)]
pub fn pass(item: TokenStream) -> TokenStream {
    pass::expand(item.into()).unwrap_or_else(|error| error.to_compile_error()).into()
}
