// refused at compile: field `0` of struct `Route` is private
use pigyelund::Route;

fn main() -> Result<(), Box<dyn std::error::Error>> {
    let mut route: Route = "10.0.0.0/8 AS64496".parse()?;
    route.0.family = 2;
    println!("accepted");
    Ok(())
}
