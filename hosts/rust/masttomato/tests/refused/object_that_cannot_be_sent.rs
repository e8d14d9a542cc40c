//~ cannot be sent between threads safely
#[masttomato::interface]
pub trait Bell {
    fn ring(&mut self);
}

struct Brass(std::rc::Rc<u32>);

impl Bell for Brass {
    fn ring(&mut self) {}
}

fn main() {}
