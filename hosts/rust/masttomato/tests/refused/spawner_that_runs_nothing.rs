//~ `u32` runs no futures
//~ a function that takes one does: move |future| drop(handle.spawn(future))
fn built(builder: masttomato::Builder) {
    let _builder = builder.spawner(5_u32);
}

fn main() {}
