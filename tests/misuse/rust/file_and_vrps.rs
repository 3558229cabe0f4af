// refused at compile: arguments to this function are incorrect
use pigyelund::{apply_slurm, Vrp};

fn main() -> Result<(), Box<dyn std::error::Error>> {
    let vrps: [Vrp; 1] = ["10.0.0.0/8 AS1".parse()?];
    // The file comes first.
    println!("{} accepted", apply_slurm(&vrps, b"{}")?.len());
    Ok(())
}
