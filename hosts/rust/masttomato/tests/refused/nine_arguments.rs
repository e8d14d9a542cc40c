//~ a method takes eight arguments at most: pass a struct
#[masttomato::interface]
pub trait Sum {
    fn sum(&mut self, a: u8, b: u8, c: u8, d: u8, e: u8, f: u8, g: u8, h: u8, i: u8);
}

fn main() {}
