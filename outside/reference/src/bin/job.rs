//! Reads a job from standard input, and prints what it comes to.

use std::io::Read;

fn main() -> std::io::Result<()> {
    let mut text = Vec::new();
    std::io::stdin().read_to_end(&mut text)?;
    print!("{}", reference::job::printed(&text));
    Ok(())
}
