// refused at compile: non-primitive cast: `Validity` as `u8`
use pigyelund::{Route, Table};

fn main() -> Result<(), Box<dyn std::error::Error>> {
    let table = Table::new(&["10.0.0.0/8 AS64496".parse()?])?;
    let route: Route = "10.0.0.0/8 AS64497".parse()?;
    if table.validate(&route) as u8 < 2 {
        println!("accepted");
    }
    Ok(())
}
