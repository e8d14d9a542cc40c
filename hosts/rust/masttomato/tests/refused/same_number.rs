//~ another method has the number 7
#[masttomato::interface]
pub trait Greeter {
    #[method(7)]
    fn greet(&mut self);
    #[method(7)]
    fn part(&mut self);
}

fn main() {}
