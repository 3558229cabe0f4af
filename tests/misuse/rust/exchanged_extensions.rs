// refused at run: BadAs(BadTag)
use pigyelund::{Encoding, Extensions, Resources};

fn main() -> Result<(), Box<dyn std::error::Error>> {
    let issuer: Resources = "10.0.0.0/8".parse()?;
    let claim = "10.0.0.0/8, 12.0.0.0/8".parse::<Resources>()?.der()?;
    let exchanged = Extensions { asn: Some(&claim.ip), ip: None };
    let set = Resources::read(exchanged, Encoding::Strict)?;
    assert!(issuer != set);
    println!("accepted");
    Ok(())
}
