//! Writes `docs/layers.svg`, the picture of the crates by layer, from `crates.txt` and `docs/ARCHITECTURE.md`.

fn main() -> std::io::Result<()> {
    let path = documents::root().join("docs/layers.svg");
    std::fs::write(&path, documents::layers::picture())?;
    println!("wrote docs/layers.svg");
    Ok(())
}
