//~ `Instant` can't be passed to another space
#[derive(masttomato::Pass)]
pub struct Meeting {
    at: std::time::Instant,
}

fn main() {}
