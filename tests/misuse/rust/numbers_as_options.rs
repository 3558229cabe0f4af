// refused at compile: arguments to this method are incorrect
use pigyelund::Resources;

fn main() -> Result<(), Box<dyn std::error::Error>> {
    let issuer: Resources = "10.0.0.0/8".parse()?;
    let claim = "10.0.0.0/8, 12.0.0.0/8".parse::<Resources>()?.der()?;
    issuer.verify(claim.extensions(), 17, 32)?;
    println!("accepted");
    Ok(())
}
