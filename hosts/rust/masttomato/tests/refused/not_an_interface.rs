//~ is no interface
//~ an interface is `dyn Trait` of a trait with the attribute #[masttomato::interface]
pub trait Greeter: Send {
    fn greet(&mut self) -> String;
}

fn asked(node: &masttomato::Node, peer: masttomato::SpaceId) {
    let _greeter = node.lookup::<dyn Greeter>(peer, "greeter").wait();
}

fn main() {}
