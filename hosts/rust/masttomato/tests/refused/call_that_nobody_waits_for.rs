//~ a call that is dropped goes on, but nobody has its answer
#![deny(unused_must_use)]

#[masttomato::interface]
pub trait Bell {
    fn ring(&mut self);
}

fn rung(bell: masttomato::Remote<dyn Bell>) {
    bell.ring();
}

fn main() {}
