//~ an argument has a plain name here
#[masttomato::interface]
pub trait Sum {
    fn sum(&mut self, (one, other): (u8, u8)) -> u8;
}

fn main() {}
