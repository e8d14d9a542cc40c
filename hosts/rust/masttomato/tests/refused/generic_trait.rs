//~ an interface has no generics: what goes to another process has one type
#[masttomato::interface]
pub trait Keeper<T> {
    fn keep(&mut self, thing: T);
}

fn main() {}
