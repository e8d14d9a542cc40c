//~ a Remote has try_ring beside ring: give this method another name
#[masttomato::interface]
pub trait Bell {
    fn ring(&mut self);
    fn try_ring(&mut self) -> bool;
}

fn main() {}
