//~ a method's number is wanted: #[method(7)]
#[masttomato::interface]
pub trait Greeter {
    #[method(first)]
    fn greet(&mut self);
}

fn main() {}
