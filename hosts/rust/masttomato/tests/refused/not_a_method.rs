//~ an interface has methods and nothing else
#[masttomato::interface]
pub trait Greeter {
    const LANGUAGE: u32;
}

fn main() {}
