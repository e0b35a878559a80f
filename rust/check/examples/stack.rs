//! Prints the stack that each call of the library needs, in bytes.

fn main() {
    for (name, bytes) in check::stack::measured(500) {
        println!("{name} {bytes}");
    }
}
