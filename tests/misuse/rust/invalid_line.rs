// refused at run: BadLine(MaxLen)
use pigyelund::Table;

fn main() -> Result<(), Box<dyn std::error::Error>> {
    // One line is invalid. No line is skipped.
    Table::read(b"AS1,10.0.0.0/8,8\nAS2,10.0.0.0/8,7\n")?;
    println!("accepted");
    Ok(())
}
