//! Lines of times beside plain Rust by two numbers of objects, and how they grow.

/// Microseconds of the proved library and of plain Rust.
pub type Times = [f64; 2];

/// Times by the number of objects.
pub struct Line {
    pub what: String,
    pub times: [Times; 2],
}

pub fn print_head(what: &str, counts: [&str; 2]) {
    println!(
        "\n{what:<46}{:>32}{:>32}{:>16}",
        counts[0], counts[1], "growth"
    );
    print!("{:<46}", "");
    for _ in counts {
        print!("{:>12}{:>12}{:>8}", "proved µs", "plain Rust", "ratio");
    }
    println!("{:>8}{:>8}", "proved", "plain");
}

pub fn print_line(line: &Line) {
    print!("{:<46}", line.what);
    for [proved, plain] in line.times {
        print!("{proved:>12.1}{plain:>12.1}{:>8.2}", proved / plain);
    }
    let [small, large] = line.times;
    println!("{:>8.1}{:>8.1}", large[0] / small[0], large[1] / small[1]);
}
