// refused at compile: `Resources` is not an iterator
use pigyelund::Resources;

fn main() -> Result<(), Box<dyn std::error::Error>> {
    let set: Resources = "AS64496, 10.0.0.0/8".parse()?;
    // A list of prefixes would lose the AS numbers.
    for part in set {
        println!("{part} accepted");
    }
    Ok(())
}
