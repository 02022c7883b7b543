//! Writes the kinds and names of the nodes of standard input, or why it isn't a document.

use std::io::Read;

fn main() -> Result<(), Box<dyn std::error::Error>> {
    let mut source = String::new();
    std::io::stdin().read_to_string(&mut source)?;
    for node in firthnapkin::parse(&source)?.nodes() {
        println!("{:?} {}", node.kind(), node.name().unwrap_or(node.text()));
    }
    Ok(())
}
