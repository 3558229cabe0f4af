// refused at run: MaxLen
use pigyelund::{Prefix, Vrp};

fn main() -> Result<(), Box<dyn std::error::Error>> {
    let prefix: Prefix = "10.0.0.0/8".parse()?;
    Vrp::new(prefix, 3, 64496)?;
    println!("accepted");
    Ok(())
}
