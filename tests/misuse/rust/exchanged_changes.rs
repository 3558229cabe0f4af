// refused at run: UnknownWithdrawal
use pigyelund::{Table, Vrp};

fn main() -> Result<(), Box<dyn std::error::Error>> {
    let [old, new]: [Vrp; 2] = ["10.0.0.0/8 AS1".parse()?, "10.0.0.0/8 AS2".parse()?];
    // The announced VRPs come first.
    Table::new(&[old])?.with_changes(&[old], &[new])?;
    println!("accepted");
    Ok(())
}
