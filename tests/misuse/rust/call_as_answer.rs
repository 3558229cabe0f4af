// refused at compile: attempted to take value of method `contains`
use pigyelund::Resources;

fn main() -> Result<(), Box<dyn std::error::Error>> {
    let set: Resources = "10.0.0.0/8".parse()?;
    if set.contains {
        println!("accepted");
    }
    Ok(())
}
