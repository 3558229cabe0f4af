// refused at compile: field `excess` of struct `ResourceError` is private
use pigyelund::{Encoding, Mode, Resources};

fn main() -> Result<(), Box<dyn std::error::Error>> {
    let issuer: Resources = "10.0.0.0/8".parse()?;
    let claim = "10.0.0.0/8, 12.0.0.0/8".parse::<Resources>()?.der()?;
    if let Err(refused) = issuer.verify(claim.extensions(), Encoding::Strict, Mode::Refuse) {
        println!("{:?}", refused.excess);
    }
    println!("accepted");
    Ok(())
}
