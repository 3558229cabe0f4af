// refused at compile: the trait bound
use pigyelund::Resources;

fn main() -> Result<(), Box<dyn std::error::Error>> {
    // A number could be an AS number, or a length.
    let set: Resources = "AS64496".parse()?;
    if set.contains(64496) {
        println!("accepted");
    }
    Ok(())
}
