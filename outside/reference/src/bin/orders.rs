//! Prints the three orders of the named graphs, with places and overflow.

fn main() {
    print!("{}", reference::printed::orders());
}
