// refused at compile: literal out of range for `u8`
use pigyelund::{Prefix, Vrp};

fn main() -> Result<(), Box<dyn std::error::Error>> {
    let prefix: Prefix = "10.0.0.0/8".parse()?;
    Vrp::new(prefix, 64496, 16)?;
    println!("accepted");
    Ok(())
}
