//~ `Brass` is no interface
//~ name it where an object is exported: node.export::<dyn Trait>(Box::new(object))
#[masttomato::interface]
pub trait Bell {
    fn ring(&mut self);
}

struct Brass;

impl Bell for Brass {
    fn ring(&mut self) {}
}

fn exported(node: &masttomato::Node) {
    let _bell = node.export(Box::new(Brass));
}

fn main() {}
