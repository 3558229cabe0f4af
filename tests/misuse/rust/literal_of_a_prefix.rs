// refused at compile: error[E0451]: fields `address` and `len` of struct
use pigyelund::Prefix;

fn main() -> Result<(), Box<dyn std::error::Error>> {
    let prefix = Prefix { address: "10.1.0.0".parse()?, len: 8 };
    println!("{prefix}");
    println!("accepted");
    Ok(())
}
