//~ a union can't be passed: which of its fields is there isn't known
#[derive(masttomato::Pass)]
pub union Either {
    one: u32,
    other: i32,
}

fn main() {}
