// refused at run: fault: Prefix
use pigyelund::Route;

fn main() -> Result<(), Box<dyn std::error::Error>> {
    let _: Route = "10.0.0.0/33 AS64496".parse()?;
    println!("accepted");
    Ok(())
}
