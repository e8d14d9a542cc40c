//~ a method of an interface has no generics
#[masttomato::interface]
pub trait Keeper {
    fn keep<T: Send>(&mut self, thing: T);
}

fn main() {}
