//! Prints what every call of the hand-counted cases and of the traps tells.
//! With the word `script` it prints the calls instead.

use reference::printed;

fn main() {
    let script = std::env::args().skip(1).any(|word| word == "script");
    let text = if script {
        printed::script()
    } else {
        printed::told()
    };
    print!("{text}");
}
