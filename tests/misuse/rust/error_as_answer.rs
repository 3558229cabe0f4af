// refused at run: BadQuery
fn main() -> Result<(), Box<dyn std::error::Error>> {
    // The program respath prints "error: .." for this line.
    let text = pigyelund::answer("norm as x")?;
    println!("{text}");
    println!("accepted");
    Ok(())
}
