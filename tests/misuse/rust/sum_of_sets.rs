// refused at compile: cannot add `Resources` to `Resources`
use pigyelund::Resources;

fn main() -> Result<(), Box<dyn std::error::Error>> {
    let [a, b]: [Resources; 2] = ["10.0.0.0/8".parse()?, "12.0.0.0/8".parse()?];
    println!("{} accepted", a + b);
    Ok(())
}
