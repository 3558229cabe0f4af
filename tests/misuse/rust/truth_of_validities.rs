// refused at compile: expected `bool`, found `Vec<Validity>`
use pigyelund::{Route, Table};

fn main() -> Result<(), Box<dyn std::error::Error>> {
    let table = Table::new(&["10.0.0.0/8 AS64496".parse()?])?;
    let route: Route = "10.0.0.0/8 AS64497".parse()?;
    if table.validate_routes(&[route]) {
        println!("accepted");
    }
    Ok(())
}
