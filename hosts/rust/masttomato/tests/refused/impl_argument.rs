//~ what goes to another process has one type: name it
#[masttomato::interface]
pub trait Keeper {
    fn keep(&mut self, thing: impl Send);
}

fn main() {}
