// accepted: the calls that the other callers make in a wrong way
use pigyelund::{Encoding, Family, Mode, Prefix, Resources, Route, Table, Validity, Vrp};

fn main() -> Result<(), Box<dyn std::error::Error>> {
    let issuer: Resources = "10.0.0.0/8".parse()?;
    let claim = "10.0.0.0/8, 12.0.0.0/8".parse::<Resources>()?.der()?;
    let left = issuer.verify(claim.extensions(), Encoding::Strict, Mode::Trim)?;
    let ten: Prefix = "10.0.0.0/8".parse()?;
    assert!(issuer.contains(&left) && left.prefixes(Family::V4)? == [ten]);
    let vrp = Vrp::new(ten, 16, 64496)?;
    let table = Table::new(&[vrp])?.with_changes(&[], &[vrp])?;
    assert_eq!(table.validate(&Route::new(ten, 64496)), Validity::NotFound);
    println!("accepted");
    Ok(())
}
