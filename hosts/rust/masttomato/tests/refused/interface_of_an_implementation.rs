//~ #[interface] stands at a trait: what implements it needs no attribute
#[masttomato::interface]
pub trait Bell {
    fn ring(&mut self);
}

struct Brass;

#[masttomato::interface]
impl Bell for Brass {
    fn ring(&mut self) {}
}

fn main() {}
