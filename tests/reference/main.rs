//! A program of its own, so that another archive wants only a new link.

fn main() {
    comparison::main()
}
