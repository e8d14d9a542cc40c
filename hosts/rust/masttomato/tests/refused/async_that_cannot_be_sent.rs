//~ future cannot be sent between threads safely
//~ future returned by `ring` is not `Send`
#[masttomato::interface]
pub trait Bell {
    async fn ring(&mut self);
}

struct Brass;

impl Bell for Brass {
    async fn ring(&mut self) {
        let sound = std::rc::Rc::new(5);
        std::future::pending::<()>().await;
        drop(sound);
    }
}

fn main() {}
