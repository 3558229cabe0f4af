// refused at run: NotObject
use pigyelund::{apply_slurm, Vrp};

fn main() -> Result<(), Box<dyn std::error::Error>> {
    let vrps: [Vrp; 1] = ["10.0.0.0/8 AS1".parse()?];
    // A file that was cut off, or is empty, has no exceptions and is invalid.
    println!("{} accepted", apply_slurm(b"", &vrps)?.len());
    Ok(())
}
