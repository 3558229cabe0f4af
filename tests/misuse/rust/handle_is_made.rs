// refused at compile: cannot initialize a tuple struct which contains private fields
use pigyelund::Table;

fn main() -> Result<(), Box<dyn std::error::Error>> {
    let table = Table(std::ptr::null_mut());
    println!("{}", table.len());
    println!("accepted");
    Ok(())
}
