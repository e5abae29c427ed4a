//! Writes the files of `examples/`: the cases, what the program prints for each, the indexes, and a night with its lists.

fn main() -> std::io::Result<()> {
    conformance::examples::write()
}
