//~ what is passed has no generics here: write the types out, or implement Pass by hand
#[derive(masttomato::Pass)]
pub struct Pair<T> {
    one: T,
    other: T,
}

fn main() {}
