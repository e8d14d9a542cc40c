//~ a Remote has a method cast of its own: give this one another name
#[masttomato::interface]
pub trait Foundry {
    fn cast(&mut self);
}

fn main() {}
