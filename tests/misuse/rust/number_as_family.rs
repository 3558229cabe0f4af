// refused at compile: expected `Family`, found integer
use pigyelund::Resources;

fn main() -> Result<(), Box<dyn std::error::Error>> {
    // AF_INET
    let set: Resources = "10.0.0.0/8".parse()?;
    set.prefixes(2)?;
    println!("accepted");
    Ok(())
}
