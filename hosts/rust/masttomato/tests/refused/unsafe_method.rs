//~ a method of an interface isn't unsafe, and has no ABI of its own
#[masttomato::interface]
pub trait Bell {
    unsafe fn ring(&mut self);
}

fn main() {}
