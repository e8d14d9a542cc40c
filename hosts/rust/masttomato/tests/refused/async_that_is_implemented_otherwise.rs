//~ `u32` is not a future
#[masttomato::interface]
pub trait Bell {
    async fn ring(&mut self) -> u32;
}

struct Brass;

impl Bell for Brass {
    fn ring(&mut self) -> u32 {
        5
    }
}

fn main() {}
