// refused at compile: no method named `clone` found for struct `Table`
use pigyelund::{Route, Table};

fn main() -> Result<(), Box<dyn std::error::Error>> {
    let table = Table::new(&["10.0.0.0/8 AS64496".parse()?])?;
    let route: Route = "10.0.0.0/8 AS64497".parse()?;
    let copy = table.clone();
    println!("{}", copy.validate(&route));
    println!("accepted");
    Ok(())
}
