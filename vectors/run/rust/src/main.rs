//! Asks the Rust crate `rpki` the cases of the vectors: a line for each on standard input, and an answer for each on
//! standard output, as compare.py says. Values of DER are read in the mode DER, as those of certificates are.

use bcder::decode;
use bcder::encode::{self, Values};
use bcder::Mode;
use rpki::repository::cert::Overclaim;
use rpki::repository::resources::{
    AddressFamily, AsBlocks, AsResources, IpBlocks, IpResources, Ipv4Blocks, Ipv6Blocks,
};
use std::io::{self, BufRead, Write};
use std::panic;
use std::str::FromStr;

type Families = (Option<IpResources>, Option<IpResources>);

/// A set of one kind, with what its operations and its text need.
trait Set: Sized {
    fn read(text: &str) -> Option<Self>;
    fn text(&self) -> String;
    fn union(&self, other: &Self) -> Self;
    fn intersection(&self, other: &Self) -> Self;
    fn difference(&self, other: &Self) -> Self;
    fn contains(&self, other: &Self) -> bool;
    /// What a claim has, or what it overclaims. The value of an extension of this kind makes the claim.
    fn issued(&self, octets: Option<&[u8]>, mode: Overclaim) -> Result<Self, String>;
}

fn octets_of(text: &str) -> Vec<u8> {
    let digits = |at: usize| u8::from_str_radix(&text[at..at + 2], 16).expect("hexadecimal");
    (0..text.len()).step_by(2).map(digits).collect()
}

fn text_of(octets: &[u8]) -> String {
    octets.iter().map(|octet| format!("{octet:02x}")).collect()
}

fn read_as(octets: &[u8]) -> Option<AsResources> {
    Mode::Der.decode(octets, |cons: &mut decode::Constructed<_>| AsResources::take_from(cons)).ok()
}

fn read_ip(octets: &[u8]) -> Option<Families> {
    Mode::Der.decode(octets, |cons: &mut decode::Constructed<_>| IpResources::take_families_from(cons)).ok()
}

fn written(values: impl Values) -> String {
    let mut octets = Vec::new();
    values.write_encoded(Mode::Der, &mut octets).expect("memory");
    text_of(&octets)
}

/// The answer for the AS numbers or the addresses of a value: what is written of it again.
fn of_der(file: &str, octets: &[u8]) -> String {
    let again = if file == "der_as" {
        read_as(octets).map(|found| written(found.encode_ref()))
    } else {
        read_ip(octets).map(|(v4, v6)| {
            let v4 = v4.unwrap_or_else(IpResources::missing);
            let v6 = v6.unwrap_or_else(IpResources::missing);
            let families = (v4.encode_family(AddressFamily::Ipv4), v6.encode_family(AddressFamily::Ipv6));
            written(encode::sequence(families))
        })
    };
    match again {
        None => "refuse".into(),
        Some(found) if found == text_of(octets) => format!("canonical {found}"),
        Some(found) => format!("valid {found}"),
    }
}

impl Set for AsBlocks {
    fn read(text: &str) -> Option<Self> {
        AsBlocks::from_str(text).ok()
    }
    fn text(&self) -> String {
        self.to_string()
    }
    fn union(&self, other: &Self) -> Self {
        AsBlocks::union(self, other)
    }
    vectors::operations!(AsBlocks);
    fn issued(&self, octets: Option<&[u8]>, mode: Overclaim) -> Result<Self, String> {
        let claim = octets.map_or_else(AsResources::missing, |it| read_as(it).expect("AS identifiers"));
        let excess = |of: String| of.trim_start_matches("overclaimed AS resources: ").into();
        self.verify_issued(&claim, mode).map_err(|it| excess(it.to_string()))
    }
}

/// The sets of a family of addresses: its name, and the member of a pair of families.
macro_rules! family {
    ($name:ident, $member:tt) => {
        impl Set for $name {
            fn read(text: &str) -> Option<Self> {
                $name::from_str(text).ok()
            }
            fn text(&self) -> String {
                self.to_string()
            }
            fn union(&self, other: &Self) -> Self {
                IpBlocks::union(self, other).into()
            }
            vectors::operations!(IpBlocks);
            fn issued(&self, octets: Option<&[u8]>, mode: Overclaim) -> Result<Self, String> {
                let claim = octets.and_then(|it| read_ip(it).expect("IP address blocks").$member);
                let claim = claim.unwrap_or_else(IpResources::missing);
                let left = self.verify_issued(&claim, mode).map(Into::into);
                left.map_err(|_| Set::difference(&$name::from(claim.to_blocks().expect("a list")), self).text())
            }
        }
    };
}
family!(Ipv4Blocks, 0);
family!(Ipv6Blocks, 1);

fn of_text<S: Set>(text: &str) -> String {
    let octets = octets_of(text);
    S::read(std::str::from_utf8(&octets).expect("UTF-8")).map_or("refuse".into(), |it| format!("accept {}", it.text()))
}

fn of_operation<S: Set>(operation: &str, left: &str, right: &str) -> String {
    let (Some(left), Some(right)) = (S::read(left), S::read(right)) else {
        return "-".into();
    };
    let found = match operation {
        "union" => left.union(&right).text(),
        "intersection" => left.intersection(&right).text(),
        "difference" => left.difference(&right).text(),
        "contains" => left.contains(&right).to_string(),
        _ => (left.contains(&right) && right.contains(&left)).to_string(),
    };
    format!("accept {found}")
}

fn of_path<S: Set>(anchor: &str, certificates: &[&str]) -> String {
    let nothing = S::read("").expect("the empty list");
    let value = |text: &str| (text != "-").then(|| octets_of(text));
    // An issuer that has everything makes a set of the anchor's value.
    let all = ["AS0-AS4294967295", "0.0.0.0/0", "::/0"].into_iter().find_map(S::read).expect("everything");
    let listed = |octets: Vec<u8>| all.issued(Some(&octets), Overclaim::Refuse).ok().expect("an anchor");
    let mut left = value(anchor).map_or(nothing, listed);
    for (at, certificate) in certificates.iter().enumerate() {
        let (policy, octets) = certificate.split_once(' ').expect("a policy");
        let mode = if policy == "trim" { Overclaim::Trim } else { Overclaim::Refuse };
        match left.issued(value(octets).as_deref(), mode) {
            Ok(found) => left = found,
            Err(overclaimed) => return format!("refuse {at} {overclaimed}"),
        }
    }
    format!("accept {}", left.text())
}

fn answer(fields: &[&str]) -> String {
    match *fields {
        [file @ ("der_as" | "der_ip"), octets] => of_der(file, &octets_of(octets)),
        ["text_as", text] => of_text::<AsBlocks>(text),
        ["text_ip", "v4", text] => of_text::<Ipv4Blocks>(text),
        ["text_ip", "v6", text] => of_text::<Ipv6Blocks>(text),
        ["set_operations", operation, "as", left, right] => of_operation::<AsBlocks>(operation, left, right),
        ["set_operations", operation, "v4", left, right] => of_operation::<Ipv4Blocks>(operation, left, right),
        ["set_operations", operation, "v6", left, right] => of_operation::<Ipv6Blocks>(operation, left, right),
        ["verify_path", "as", anchor, ref path @ ..] => of_path::<AsBlocks>(anchor, path),
        ["verify_path", "v4", anchor, ref path @ ..] => of_path::<Ipv4Blocks>(anchor, path),
        ["verify_path", "v6", anchor, ref path @ ..] => of_path::<Ipv6Blocks>(anchor, path),
        _ => "-".into(),
    }
}

fn main() -> io::Result<()> {
    let mut output = io::BufWriter::new(io::stdout().lock());
    for line in io::stdin().lock().lines() {
        let line = line?;
        let fields: Vec<&str> = line.split('\t').collect();
        writeln!(output, "{}", panic::catch_unwind(|| answer(&fields)).unwrap_or("abort".into()))?;
    }
    output.flush()
}
