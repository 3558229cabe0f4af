// refused at compile: expected `Kind`, found `Family`
use pigyelund::{Family, Resources};

fn main() -> Result<(), Box<dyn std::error::Error>> {
    Resources::from_text("10.0.0.0/8", Family::V4)?;
    println!("accepted");
    Ok(())
}
