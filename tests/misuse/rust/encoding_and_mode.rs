// refused at compile: arguments to this method are incorrect
use pigyelund::{Encoding, Mode, Resources};

fn main() -> Result<(), Box<dyn std::error::Error>> {
    let issuer: Resources = "10.0.0.0/8".parse()?;
    let claim = "10.0.0.0/8, 12.0.0.0/8".parse::<Resources>()?.der()?;
    // The two are exchanged. In an earlier interface this meant lenient and trim.
    issuer.verify(claim.extensions(), Mode::Refuse, Encoding::Strict)?;
    println!("accepted");
    Ok(())
}
