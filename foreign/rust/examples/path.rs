//! Verifies two certificates on a path. Prints the verified resources of the first one, and why the second one is
//! refused.
use pigyelund::{Certificate, Encoding, Extensions, Mode, Resources};
use std::error::Error;

fn main() -> Result<(), Box<dyn Error>> {
    // The trust anchor has 10.0.0.0/8. Each certificate claims 12.0.0.0/8 too, as DER.
    let anchor: Resources = "10.0.0.0/8".parse()?;
    let claim = [
        0x30, 0x10, 0x30, 0x0e, 4, 2, 0, 1, 0x30, 8, 3, 2, 0, 10, 3, 2, 0, 12,
    ];
    let extensions = Extensions {
        asn: None,
        ip: Some(&claim),
    };
    let [trim, refuse] = [Mode::Trim, Mode::Refuse].map(|mode| Certificate { extensions, mode });

    // One certificate in mode `Trim`: the claim is reduced to what the anchor has.
    println!("{}", anchor.verify_path(&[trim], Encoding::Strict)?);

    // Two certificates. The second one, in mode `Refuse`, claims more than the first one has.
    if let Err(refused) = anchor.verify_path(&[trim, refuse], Encoding::Strict) {
        println!("{refused}");
        if let Some(excess) = refused.excess() {
            println!("{excess}");
        }
    }
    Ok(())
}
