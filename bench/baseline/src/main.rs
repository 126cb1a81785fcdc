//! The same work in stock Rust, for `bench/run`: `baseline NAME` prints lines `NAME VALUE UNIT`.

mod aliases;
mod catalogue;
mod configuration;
mod leaves;
mod manager;
mod pairs;
mod patterns;
mod plans;
mod texts;

fn main() {
    let name = std::env::args().nth(1).unwrap_or_default();
    match name.as_str() {
        "catalogue" => catalogue::measure(),
        "configuration" => configuration::measure(),
        "leaves" => leaves::measure(),
        "managed" => manager::measure_padded(),
        "manager" => manager::measure(),
        "patterns" => {
            patterns::measure();
            aliases::measure();
        }
        "plans" => plans::measure(),
        // a benchmark without a baseline prints nothing
        _ => {}
    }
}
