// refused at compile: binary operation `<=` cannot be applied to type
use pigyelund::Resources;

fn main() -> Result<(), Box<dyn std::error::Error>> {
    // In Python `<=` of two sets is the subset test. An order of the DER would be another one.
    let [a, b]: [Resources; 2] = ["10.0.0.0/8".parse()?, "12.0.0.0/8".parse()?];
    if a <= b {
        println!("accepted");
    }
    Ok(())
}
