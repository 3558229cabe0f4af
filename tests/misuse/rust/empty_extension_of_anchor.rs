// refused at run: BadAs(Truncated)
use pigyelund::{Encoding, Extensions, Resources};

fn main() -> Result<(), Box<dyn std::error::Error>> {
    Resources::read(Extensions { asn: Some(&[]), ip: None }, Encoding::Strict)?;
    println!("accepted");
    Ok(())
}
