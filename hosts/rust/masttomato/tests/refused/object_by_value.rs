//~ an object goes by reference: write Remote<dyn Trait> for Box<dyn Trait>
#[masttomato::interface]
pub trait Bell {
    fn ring(&mut self);
}

#[masttomato::interface]
pub trait Tower {
    fn hang(&mut self, bell: Box<dyn Bell>);
}

fn main() {}
