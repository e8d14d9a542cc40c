//~ what goes to another process is owned: write String for &str
#[masttomato::interface]
pub trait Greeter {
    async fn greet(&mut self, name: &str) -> String;
}

fn main() {}
