// refused at compile: error[E0616]: field `len` of struct
use pigyelund::Prefix;

fn main() -> Result<(), Box<dyn std::error::Error>> {
    let mut prefix: Prefix = "10.0.0.0/8".parse()?;
    prefix.len = 33;
    println!("accepted");
    Ok(())
}
