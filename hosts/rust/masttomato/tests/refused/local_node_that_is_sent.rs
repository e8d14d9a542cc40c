//~ cannot be sent between threads safely
fn sent(node: masttomato::LocalNode) {
    std::thread::spawn(move || node.id());
}

fn main() {}
