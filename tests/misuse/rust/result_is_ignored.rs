// refused at compile: unused `Result` that must be used
#![deny(warnings)]
use pigyelund::{Encoding, Mode, Resources};

fn main() -> Result<(), Box<dyn std::error::Error>> {
    let issuer: Resources = "10.0.0.0/8".parse()?;
    let claim = "10.0.0.0/8, 12.0.0.0/8".parse::<Resources>()?.der()?;
    issuer.verify(claim.extensions(), Encoding::Strict, Mode::Refuse);
    println!("accepted");
    Ok(())
}
