// refused at run: Inherited
use pigyelund::{Encoding, Extensions, Resources};

fn main() -> Result<(), Box<dyn std::error::Error>> {
    let inherits = Extensions { asn: Some(&[0x30, 4, 0xa0, 2, 5, 0]), ip: None };
    Resources::read(inherits, Encoding::Strict)?;
    println!("accepted");
    Ok(())
}
