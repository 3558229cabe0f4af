//! calls [--quick]: measures calls of the C library, and the same of the Rust crate `rpki`, in one process.
//!
//! It prints the microseconds of a call over sets of N blocks of each kind, the least of RUNS: ours, those of the crate
//! and the ratio. Each call reads its sets from DER and writes the DER of its result, ours into buffers that suffice.
//! `cover` lists the IPv4 prefixes of one set. In `held` the crate has read the issuer's set before. In `verify` and
//! `contains` each block of the second set is inside one of the first. In the other calls the blocks overlap. The
//! program ends if a result of the crate differs from ours. --quick makes two runs.

use bcder::encode::{self, Values};
use bcder::{decode, Mode};
use pigyelund_sys::*;
use rpki::repository::cert::Overclaim;
use rpki::repository::resources::{
    Addr, AddressFamily, AddressRange, AsBlocks, AsResources, Asn, IpBlock, IpBlocks, IpResources,
};
use std::hint::black_box;
use std::ptr::null_mut;
use std::time::Instant;

const RUNS: usize = 250;

/// The DER of both extensions of a certificate.
#[derive(Clone, Default, Eq, PartialEq)]
struct Der {
    asn: Vec<u8>,
    ip: Vec<u8>,
}

/// What the crate reads of both extensions.
struct Claim {
    asn: AsResources,
    v4: IpResources,
    v6: IpResources,
}

struct Sets {
    asn: AsBlocks,
    v4: IpBlocks,
    v6: IpBlocks,
}

impl Der {
    fn set(&self) -> pigy_set {
        pigy_set { as_: self.asn.as_ptr(), as_len: self.asn.len(), ip: self.ip.as_ptr(), ip_len: self.ip.len() }
    }
    fn buffers(&mut self) -> pigy_buffers {
        let (asn, ip) = (&mut self.asn, &mut self.ip);
        pigy_buffers {
            as_: asn.as_mut_ptr(),
            as_capacity: asn.len(),
            as_len: 0,
            ip: ip.as_mut_ptr(),
            ip_capacity: ip.len(),
            ip_len: 0,
        }
    }
    fn claim(&self) -> Claim {
        let asn = Mode::Der.decode(&*self.asn, |cons: &mut decode::Constructed<_>| AsResources::take_from(cons));
        let ip = Mode::Der.decode(&*self.ip, |cons: &mut decode::Constructed<_>| IpResources::take_families_from(cons));
        let (v4, v6) = ip.ok().expect("IP address blocks");
        let asn = asn.ok().expect("AS identifiers");
        Claim { asn, v4: v4.expect("IPv4"), v6: v6.expect("IPv6") }
    }
    fn sets(&self) -> Sets {
        let Claim { asn, v4, v6 } = self.claim();
        let (v4, v6) = (v4.to_blocks().expect("a list"), v6.to_blocks().expect("a list"));
        Sets { asn: asn.to_blocks().expect("a list"), v4, v6 }
    }
}

impl Sets {
    /// Makes a set of blocks, which are AS numbers, IPv4 prefixes of 24 bits, and IPv6 prefixes of 48 bits.
    fn of(blocks: &[(u32, u32)]) -> Sets {
        let ranges = |shift: u32| {
            let block = move |&(min, max): &(u32, u32)| {
                let (min, max) = (u128::from(min) << shift, (u128::from(max) + 1 << shift) - 1);
                IpBlock::from(AddressRange::new(Addr::from_bits(min), Addr::from_bits(max)))
            };
            blocks.iter().map(block).collect()
        };
        let asn = blocks.iter().map(|&(min, max)| (Asn::from_u32(min), Asn::from_u32(max)).into()).collect();
        Sets { asn, v4: ranges(104), v6: ranges(80) }
    }
    fn der(self) -> Der {
        let (v4, v6) = (IpResources::blocks(self.v4), IpResources::blocks(self.v6));
        let ip = (v4.encode_family(AddressFamily::Ipv4), v6.encode_family(AddressFamily::Ipv6));
        let asn = match self.asn.is_empty() {
            true => Vec::new(),
            false => octets_of(AsResources::blocks(self.asn).encode_ref()),
        };
        Der { asn, ip: octets_of(encode::sequence(ip)) }
    }
    fn verified(&self, Claim { asn, v4, v6 }: &Claim) -> Sets {
        let ip = |issuer: &IpBlocks, claim| issuer.verify_issued(claim, Overclaim::Refuse).expect("no more");
        let asn = self.asn.verify_issued(asn, Overclaim::Refuse).expect("no more");
        Sets { asn, v4: ip(&self.v4, v4), v6: ip(&self.v6, v6) }
    }
    fn combined(&self, other: &Sets, asn: fn(&AsBlocks, &AsBlocks) -> AsBlocks, ip: IpCall) -> Sets {
        Sets { asn: asn(&self.asn, &other.asn), v4: ip(&self.v4, &other.v4), v6: ip(&self.v6, &other.v6) }
    }
    fn contains(&self, other: &Sets) -> bool {
        self.asn.contains(&other.asn) && self.v4.contains(&other.v4) && self.v6.contains(&other.v6)
    }
}

type IpCall = fn(&IpBlocks, &IpBlocks) -> IpBlocks;
type Combine = unsafe extern "C" fn(pigy_set, pigy_set, pigy_encoding, *mut pigy_buffers) -> pigy_status;

fn octets_of(values: impl Values) -> Vec<u8> {
    let mut octets = Vec::with_capacity(values.encoded_len(Mode::Der));
    values.write_encoded(Mode::Der, &mut octets).expect("memory");
    octets
}

/// Makes calls in turn. Prints their least microseconds, and the ratios of the first one to the others.
fn measure(name: &str, blocks: usize, calls: &mut [&mut dyn FnMut()]) {
    let runs = if std::env::args().len() > 1 {
        2
    } else if blocks > 1000 {
        RUNS / 10
    } else {
        RUNS
    };
    let mut least = vec![f64::INFINITY; calls.len()];
    for _ in 0..runs {
        for (call, least) in calls.iter_mut().zip(&mut least) {
            let start = Instant::now();
            call();
            *least = least.min(start.elapsed().as_secs_f64() * 1e6);
        }
    }
    let digits = |it: f64| if it < 100.0 { 1 } else { 0 };
    print!("{name:<12}{blocks:>7}{:>8.*}", digits(least[0]), least[0]);
    for (other, width) in least[1..].iter().zip([9, 8]) {
        print!("{:>width$.*}{:>8.2}", digits(*other), other, least[0] / other);
    }
    println!();
}

/// Measures a call that makes a set of two.
fn measure_sets(name: &str, (one, other): (&Der, &Der), call: Combine, peer: impl Fn(&Sets, &Sets) -> Sets) {
    let count = one.sets().asn.iter().count();
    let mut out = Der { asn: vec![0; one.asn.len() + other.asn.len()], ip: vec![0; one.ip.len() + other.ip.len()] };
    let mut lengths = (0, 0);
    let mut ours = || {
        let mut buffers = out.buffers();
        // SAFETY: each pointer is to as many octets as its length or its capacity.
        assert_eq!(unsafe { call(one.set(), other.set(), PIGY_LENIENT, &mut buffers) }, PIGY_OK);
        lengths = (buffers.as_len, buffers.ip_len);
    };
    let mut theirs = Der::default();
    let mut peers = || theirs = black_box(peer(&one.sets(), &other.sets()).der());
    measure(name, count, &mut [&mut ours, &mut peers]);
    assert!(out.asn[..lengths.0] == theirs.asn && out.ip[..lengths.1] == theirs.ip, "{name} differs");
}

fn measure_verify(issuer: &Der, cert: &Der) {
    let held = issuer.sets();
    let (mut out, mut theirs, mut after) = (cert.clone(), Der::default(), Der::default());
    let mut ours = || {
        let mut excess =
            pigy_buffers { as_: null_mut(), as_capacity: 0, as_len: 0, ip: null_mut(), ip_capacity: 0, ip_len: 0 };
        let (has, mut buffers) = (PIGY_HAS_BOTH, out.buffers());
        // SAFETY: each pointer is to as many octets as its length or its capacity.
        let status =
            unsafe { pigy_verify(issuer.set(), cert.set(), has, PIGY_LENIENT, PIGY_REFUSE, &mut buffers, &mut excess) };
        assert_eq!((status, buffers.as_len, buffers.ip_len), (PIGY_OK, cert.asn.len(), cert.ip.len()));
    };
    let mut peers = || theirs = black_box(issuer.sets().verified(&cert.claim()).der());
    let mut helds = || after = black_box(held.verified(&cert.claim()).der());
    measure("verify", held.asn.iter().count(), &mut [&mut ours, &mut peers, &mut helds]);
    assert!(out == theirs && out == after, "verify differs");
}

fn main() {
    let blocks = |count: u32, first: u32, last: u32| -> Der {
        let listed: Vec<_> = (0..count).map(|at| (16 * at + first, 16 * at + last)).collect();
        Sets::of(&listed).der()
    };
    println!("call              N    ours     rpki   ratio    held   ratio");
    for count in [10, 1000, 100_000] {
        measure_verify(&blocks(count, 1, 9), &blocks(count, 3, 7));
    }
    let (one, inside, across) = (blocks(1000, 1, 9), blocks(1000, 3, 7), blocks(1000, 5, 12));
    let both = (&one, &across);
    measure_sets("union", both, pigy_union, |a, b| a.combined(b, AsBlocks::union, IpBlocks::union));
    measure_sets("intersection", both, pigy_intersection, |a, b| {
        a.combined(b, AsBlocks::intersection, IpBlocks::intersection)
    });
    measure_sets("difference", both, pigy_difference, |a, b| a.combined(b, AsBlocks::difference, IpBlocks::difference));
    let (mut answer, mut found) = (0, false);
    measure(
        "contains",
        1000,
        &mut [
            // SAFETY: each pointer is to as many octets as its length, and the last to one octet.
            &mut || assert_eq!(unsafe { pigy_contains(one.set(), inside.set(), PIGY_LENIENT, &mut answer) }, PIGY_OK),
            &mut || found = black_box(one.sets().contains(&inside.sets())),
        ],
    );
    assert!(answer == 1 && found, "contains differs");
    let mut listed = vec![pigy_prefix { address: [0; 16], family: 0, len: 0 }; 30_000];
    let (mut len, mut theirs, (ip, ip_len, capacity)) = (0, Vec::new(), (one.ip.as_ptr(), one.ip.len(), 30_000));
    measure(
        "cover",
        1000,
        &mut [
            &mut || {
                // SAFETY: each pointer is to as many octets or prefixes as its length or its capacity.
                let status = unsafe {
                    pigy_prefixes(
                        ip,
                        ip_len,
                        PIGY_LENIENT,
                        PIGY_IPV4 as pigy_family,
                        listed.as_mut_ptr(),
                        capacity,
                        &mut len,
                    )
                };
                assert_eq!(status, PIGY_OK);
            },
            &mut || {
                let range = |it: IpBlock| AddressRange::new(it.min(), it.max());
                theirs = one.sets().v4.iter().flat_map(|it| range(it).to_v4_prefixes()).collect();
            },
        ],
    );
    let same = listed[..len].iter().zip(&theirs).all(|(one, other)| one.len == other.addr_len());
    assert!(same && len == theirs.len(), "cover differs");
}
