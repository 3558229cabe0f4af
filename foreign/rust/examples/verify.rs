//! Verifies a certificate's IP address blocks against those of its issuer in both modes. For each mode it prints the
//! result in DER, or the reason and the overclaimed resources in DER.
use pigyelund::{Encoding, Extensions, Mode, ResourceError, Resources};

fn main() -> Result<(), ResourceError> {
    // The issuer has 10.0.0.0/8. The certificate claims 10.0.0.0/8 and 12.0.0.0/8.
    let issuer = [0x30, 0x0c, 0x30, 0x0a, 4, 2, 0, 1, 0x30, 4, 3, 2, 0, 10];
    let claim = [
        0x30, 0x10, 0x30, 0x0e, 4, 2, 0, 1, 0x30, 8, 3, 2, 0, 10, 3, 2, 0, 12,
    ];
    let [issuer, certificate] = [&issuer[..], &claim[..]].map(|ip| Extensions {
        asn: None,
        ip: Some(ip),
    });
    let issuer = Resources::read(issuer, Encoding::Lenient)?;
    for (name, mode) in [("refuse", Mode::Refuse), ("trim", Mode::Trim)] {
        let (text, set) = match issuer.verify(certificate, Encoding::Lenient, mode) {
            Ok(set) => ("done".to_string(), set),
            Err(refused) => (
                refused.to_string(),
                refused.excess().cloned().unwrap_or_default(),
            ),
        };
        print!("{name}: {text}:");
        set.der()?
            .ip
            .iter()
            .for_each(|octet| print!(" {octet:02x}"));
        println!();
    }
    Ok(())
}
