// refused at compile: the trait bound `Resources: Ord` is not satisfied
use pigyelund::Resources;

fn main() -> Result<(), Box<dyn std::error::Error>> {
    let mut sets: Vec<Resources> = vec!["AS2".parse()?, "AS1".parse()?];
    sets.sort();
    println!("accepted");
    Ok(())
}
