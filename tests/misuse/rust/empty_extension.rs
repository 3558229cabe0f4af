// refused at run: BadAs(Truncated)
use pigyelund::{Encoding, Extensions, Mode, Resources};

fn main() -> Result<(), Box<dyn std::error::Error>> {
    let issuer: Resources = "10.0.0.0/8".parse()?;
    let claim = "10.0.0.0/8, 12.0.0.0/8".parse::<Resources>()?.der()?;
    // The set has no AS numbers. Its empty octets are passed as an extension.
    let extensions = Extensions { asn: Some(&claim.asn), ip: Some(&claim.ip) };
    issuer.verify(extensions, Encoding::Strict, Mode::Trim)?;
    println!("accepted");
    Ok(())
}
