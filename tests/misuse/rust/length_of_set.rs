// refused at compile: no method named `len` found for struct `Resources`
use pigyelund::Resources;

fn main() -> Result<(), Box<dyn std::error::Error>> {
    let set: Resources = "10.0.0.0/8".parse()?;
    // The number of its prefixes, of its addresses, or of its kinds?
    println!("{} accepted", set.len());
    Ok(())
}
