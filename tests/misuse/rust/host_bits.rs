// refused at run: HostBits
use pigyelund::Prefix;

fn main() -> Result<(), Box<dyn std::error::Error>> {
    Prefix::new(std::net::Ipv4Addr::new(10, 1, 0, 0), 8)?;
    println!("accepted");
    Ok(())
}
