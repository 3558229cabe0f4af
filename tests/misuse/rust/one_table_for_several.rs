// refused at compile: expected `&Table`, found `Vrp`
use pigyelund::{validate_routes, Route, Table};

fn main() -> Result<(), Box<dyn std::error::Error>> {
    let table = Table::new(&[])?;
    let route: Route = "10.0.0.0/8 AS64497".parse()?;
    println!("{}", validate_routes(&table, &[route])[0]);
    println!("accepted");
    Ok(())
}
