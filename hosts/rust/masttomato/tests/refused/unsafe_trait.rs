//~ an interface isn't unsafe
#[masttomato::interface]
pub unsafe trait Bell {
    fn ring(&mut self);
}

fn main() {}
