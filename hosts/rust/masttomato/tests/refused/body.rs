//~ a method of an interface has no body: it runs where the object is
#[masttomato::interface]
pub trait Greeter {
    fn greet(&mut self) -> String {
        "hello".into()
    }
}

fn main() {}
