// refused at compile: mismatched types
use pigyelund::{Encoding, Mode, Resources};

fn main() -> Result<(), Box<dyn std::error::Error>> {
    let issuer: Resources = "10.0.0.0/8".parse()?;
    let claim = "10.0.0.0/8, 12.0.0.0/8".parse::<Resources>()?.der()?;
    // Overclaimed resources are taken for verified ones.
    let (Ok(set) | Err(set)) = issuer.verify(claim.extensions(), Encoding::Strict, Mode::Refuse);
    println!("{set}");
    println!("accepted");
    Ok(())
}
