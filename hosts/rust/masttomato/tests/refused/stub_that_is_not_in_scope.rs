//~ no method named `ring` found for struct `Remote<
//~ trait `BellStub` which provides `ring` is implemented but not in scope
//~ use crate::api::BellStub;
mod api {
    #[masttomato::interface]
    pub trait Bell {
        fn ring(&mut self);
    }
}

fn rung(bell: masttomato::Remote<dyn api::Bell>) {
    let _rung = bell.ring().wait();
}

fn main() {}
