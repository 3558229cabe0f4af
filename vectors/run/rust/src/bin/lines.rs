//! Prints the answers of the Rust crate `rpki` to lines of `respath`, for `bench/lines.py`.
//!
//! It reads lines from the standard input. The commands are `norm`, `cover`, `der`, `read` and `path`. The steps of a
//! path are `refuse` and `trim`. If a line has no fault, the program prints what `respath` prints.

use bcder::encode::{self, Values};
use bcder::{decode, Mode};
use rpki::repository::cert::Overclaim;
use rpki::repository::resources::{
    AddressFamily, AddressRange, AsBlocks, AsResources, IpResources, Ipv4Blocks, Ipv6Blocks,
};
use std::fmt::Display;
use std::io::{self, BufRead, Write};
use std::str::FromStr;

/// A set of one kind, and what the commands need of it.
trait Set: FromStr<Err: Display> + Display {
    fn encoded(&self) -> Vec<u8>;
    fn decoded(octets: &[u8]) -> Option<Self>;
    fn issued(&self, claim: Self, mode: Overclaim) -> Result<Self, String>;
    /// Writes the shortest list of prefixes.
    fn write_cover(&self, output: &mut impl Write) -> io::Result<()>;
}

impl Set for AsBlocks {
    fn encoded(&self) -> Vec<u8> {
        octets_of(AsResources::blocks(self.clone()).encode_ref())
    }
    fn decoded(octets: &[u8]) -> Option<Self> {
        let read = Mode::Der.decode(octets, |cons: &mut decode::Constructed<_>| AsResources::take_from(cons));
        read.ok()?.to_blocks().ok()
    }
    fn issued(&self, claim: Self, mode: Overclaim) -> Result<Self, String> {
        self.verify_issued(&AsResources::blocks(claim), mode).map_err(|it| it.to_string())
    }
    fn write_cover(&self, _output: &mut impl Write) -> io::Result<()> {
        panic!("AS numbers have no prefixes")
    }
}

/// Implements the sets of a family of addresses.
macro_rules! family {
    ($name:ident, $member:tt, $family:ident, $text:ident, $prefixes:ident, $address:ident) => {
        impl Set for $name {
            fn encoded(&self) -> Vec<u8> {
                octets_of(encode::sequence(self.to_ip_resources().encode_family(AddressFamily::$family)))
            }
            fn decoded(octets: &[u8]) -> Option<Self> {
                let read =
                    Mode::Der.decode(octets, |cons: &mut decode::Constructed<_>| IpResources::take_families_from(cons));
                Some(read.ok()?.$member?.to_blocks().ok()?.into())
            }
            fn issued(&self, claim: Self, mode: Overclaim) -> Result<Self, String> {
                let left = self.verify_issued(&claim.to_ip_resources(), mode);
                left.map(Into::into).map_err(|it| it.$text().to_string())
            }
            fn write_cover(&self, output: &mut impl Write) -> io::Result<()> {
                let mut gap = "";
                for block in self.iter() {
                    for it in AddressRange::new(block.min(), block.max()).$prefixes() {
                        write!(output, "{gap}{}/{}", it.$address(), it.addr_len())?;
                        gap = ", ";
                    }
                }
                Ok(())
            }
        }
    };
}
family!(Ipv4Blocks, 0, Ipv4, v4, to_v4_prefixes, to_v4);
family!(Ipv6Blocks, 1, Ipv6, v6, to_v6_prefixes, to_v6);

fn octets_of(values: impl Values) -> Vec<u8> {
    let mut octets = Vec::new();
    values.write_encoded(Mode::Der, &mut octets).expect("memory");
    octets
}

fn write_hex(octets: &[u8], output: &mut impl Write) -> io::Result<()> {
    const DIGITS: &[u8; 16] = b"0123456789abcdef";
    let pairs = octets.iter().flat_map(|it| [DIGITS[usize::from(it >> 4)], DIGITS[usize::from(it & 15)]]);
    output.write_all(&pairs.collect::<Vec<u8>>())
}

fn from_hex(text: &str) -> Option<Vec<u8>> {
    let digit = |it: u8| char::from(it).to_digit(16);
    let octet = |it: &[u8]| u8::try_from(digit(it[0])? << 4 | digit(it[1])?).ok();
    let pairs = text.as_bytes().chunks_exact(2);
    pairs.remainder().is_empty().then(|| pairs.map(octet).collect())?
}

fn set_of<S: Set>(list: &str) -> Result<S, String> {
    list.parse().map_err(|it| format!("error: {it}"))
}

/// Returns what remains of the first set after all steps, or the answer to a path that is refused.
fn remaining<S: Set>(text: &str) -> Result<S, String> {
    let mut parts = text.split('|').map(str::trim);
    let mut left: S = set_of(parts.next().unwrap_or_default())?;
    for (at, step) in parts.enumerate() {
        let (word, list) = step.split_once(' ').unwrap_or((step, ""));
        let mode = if word == "trim" { Overclaim::Trim } else { Overclaim::Refuse };
        let issued = left.issued(set_of(list)?, mode);
        left = issued.map_err(|it| format!("refused at step {at}: {it}"))?;
    }
    Ok(left)
}

fn write_answer<S: Set>(command: &str, text: &str, output: &mut impl Write) -> io::Result<()> {
    let found = match command {
        "read" => from_hex(text).and_then(|it| S::decoded(&it)).ok_or("error: not DER".into()),
        "path" => remaining(text),
        _ => set_of::<S>(text),
    };
    match (command, found) {
        (_, Err(refused)) => output.write_all(refused.as_bytes())?,
        ("cover", Ok(set)) => set.write_cover(output)?,
        ("der", Ok(set)) => write_hex(&set.encoded(), output)?,
        (_, Ok(set)) => write!(output, "{set}")?,
    }
    output.write_all(b"\n")
}

fn main() -> io::Result<()> {
    let (mut input, mut output) = (io::stdin().lock(), io::BufWriter::new(io::stdout().lock()));
    let mut line = String::new();
    while input.read_line(&mut line)? > 0 {
        let (command, rest) = line.trim_end().split_once(' ').unwrap_or_default();
        match rest.split_once(' ').unwrap_or_default() {
            ("as", text) => write_answer::<AsBlocks>(command, text, &mut output)?,
            ("v4", text) => write_answer::<Ipv4Blocks>(command, text, &mut output)?,
            (_, text) => write_answer::<Ipv6Blocks>(command, text, &mut output)?,
        }
        line.clear();
    }
    output.flush()
}
