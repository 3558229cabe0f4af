// refused at run: BadRoute(Prefix)
fn main() -> Result<(), Box<dyn std::error::Error>> {
    // One line is invalid. No line is skipped.
    pigyelund::read_routes(b"10.0.0.0/8 AS1\n10.0.0.1/8 AS1\n")?;
    println!("accepted");
    Ok(())
}
