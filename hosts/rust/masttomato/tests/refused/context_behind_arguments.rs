//~ the context stands first, behind &mut self
use masttomato::Context;

#[masttomato::interface]
pub trait Door {
    fn knock(&mut self, times: u32, context: &Context);
}

fn main() {}
