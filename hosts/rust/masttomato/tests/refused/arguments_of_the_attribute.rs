//~ #[interface] takes no arguments
#[masttomato::interface(name = "bell")]
pub trait Bell {
    fn ring(&mut self);
}

fn main() {}
