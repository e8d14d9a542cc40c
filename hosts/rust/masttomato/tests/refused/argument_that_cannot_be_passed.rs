//~ `Order` can't be passed to another space
//~ derive it for a struct or an enum of your own: #[derive(masttomato::Pass)]
pub struct Order {
    pub item: String,
}

#[masttomato::interface]
pub trait Shop {
    fn sell(&mut self, order: Order);
}

fn main() {}
