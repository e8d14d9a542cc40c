//~ a method of an interface takes &mut self: an object runs one call at a time
#[masttomato::interface]
pub trait Greeter {
    fn greet(&self) -> String;
}

fn main() {}
