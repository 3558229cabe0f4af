// refused at compile: expected `u64`, found `SystemTime`
use pigyelund::read_unexpired_vrps;

fn main() -> Result<(), Box<dyn std::error::Error>> {
    let found = read_unexpired_vrps(b"AS64496,10.0.0.0/8,8\n", std::time::SystemTime::now())?;
    println!("{} accepted", found.vrps.len());
    Ok(())
}
