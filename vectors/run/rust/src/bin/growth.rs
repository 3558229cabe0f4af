//! Measures the calls of the Rust crate `rpki` that `crates/bench_growth` measures of ours.
//!
//! It takes the arguments of that program, except those about origins. It makes the same lists of blocks, prints the
//! same lines on standard output, and the microseconds of each call on standard error. It leaves out reading blocks
//! that do not ascend, which the crate sorts in quadratic time, and reading in strict mode. Its `union` is a linear
//! merge, because that of the crate takes quadratic time.

use bcder::encode::{self, Values};
use bcder::{decode, Mode};
use rpki::repository::cert::Overclaim;
use rpki::repository::resources::{
    Addr, AddressRange, AsBlock, AsBlocks, AsResources, Asn, IpBlock, IpBlocks, IpResources, Prefix,
};
use std::env;
use std::hint::black_box;
use std::time::Instant;

const STEPS: u32 = 10;

trait Set: Sized {
    const KIND: &'static str;
    type Block: Copy + PartialEq;
    type Claim;

    fn block(at: u32, is_other: bool, is_single: bool) -> Option<Self::Block>;
    fn block_on_path(at: u32, length: u32, is_single: bool) -> Option<Self::Block>;
    fn min(block: Self::Block) -> u128;
    fn from_blocks(blocks: impl IntoIterator<Item = Self::Block>) -> Self;
    fn blocks(&self) -> impl Iterator<Item = Self::Block> + '_;
    fn intersection(&self, other: &Self) -> Self;
    fn difference(&self, other: &Self) -> Self;
    fn contains(&self, other: &Self) -> bool;
    fn claim(self) -> Self::Claim;
    fn issued(&self, claim: &Self::Claim, mode: Overclaim) -> Option<Self>;
    fn encoded(&self) -> Vec<u8>;
    fn sequence(&self) -> Vec<u8>;
    fn take(octets: &[u8]) -> Option<Self>;

    /// The union by a linear merge of the blocks of both sets.
    fn union(&self, other: &Self) -> Self {
        let (mut ones, mut others) = (self.blocks().peekable(), other.blocks().peekable());
        Self::from_blocks(std::iter::from_fn(|| match (ones.peek(), others.peek()) {
            (Some(one), Some(other)) if Self::min(*other) < Self::min(*one) => others.next(),
            (Some(_), _) => ones.next(),
            (None, _) => others.next(),
        }))
    }
}

impl Set for AsBlocks {
    const KIND: &'static str = "as";
    type Block = AsBlock;
    type Claim = AsResources;

    fn block(at: u32, is_other: bool, is_single: bool) -> Option<AsBlock> {
        let min = at.checked_mul(8)?.checked_add(if is_other { 2 } else { 0 })?;
        as_block(min, if is_single { 0 } else { 3 })
    }
    fn block_on_path(at: u32, length: u32, _is_single: bool) -> Option<AsBlock> {
        as_block(at.checked_mul(16)?, length)
    }
    fn min(block: AsBlock) -> u128 {
        block.min().into_u32().into()
    }
    fn from_blocks(blocks: impl IntoIterator<Item = AsBlock>) -> Self {
        blocks.into_iter().collect()
    }
    fn blocks(&self) -> impl Iterator<Item = AsBlock> + '_ {
        self.iter()
    }
    vectors::operations!(AsBlocks);
    fn claim(self) -> AsResources {
        AsResources::blocks(self)
    }
    fn issued(&self, claim: &AsResources, mode: Overclaim) -> Option<Self> {
        self.verify_issued(claim, mode).ok()
    }
    fn encoded(&self) -> Vec<u8> {
        octets_of(self.encode_ref())
    }
    fn sequence(&self) -> Vec<u8> {
        octets_of(encode::sequence(self.encode_ref()))
    }
    fn take(octets: &[u8]) -> Option<Self> {
        Mode::Der.decode(octets, |cons: &mut decode::Constructed<_>| AsBlocks::take_from(cons)).ok()
    }
}

fn octets_of(values: impl Values) -> Vec<u8> {
    let mut octets = Vec::new();
    values.write_encoded(Mode::Der, &mut octets).expect("memory");
    octets
}

fn as_block(min: u32, length: u32) -> Option<AsBlock> {
    let max = Asn::from_u32(min.checked_add(length)?);
    let min = Asn::from_u32(min);
    Some(if length == 0 { min.into() } else { (min, max).into() })
}

impl Set for IpBlocks {
    const KIND: &'static str = "ip";
    type Block = IpBlock;
    type Claim = IpResources;

    fn block(at: u32, is_other: bool, is_single: bool) -> Option<IpBlock> {
        let min = (u128::from(at) << 64) + if is_other { 1 << 32 } else { 0 };
        let bits = if is_other || at % 2 == 0 { 112 } else { 80 };
        Some(ip_block(min, 2, is_single.then_some(bits)))
    }
    fn block_on_path(at: u32, length: u32, is_single: bool) -> Option<IpBlock> {
        let min = u128::from(at).checked_mul(1 << 88)?.checked_add(1 << 125)?;
        Some(ip_block(min, length, is_single.then_some(u8::try_from(56 - length).ok()?)))
    }
    fn min(block: IpBlock) -> u128 {
        block.min().to_bits()
    }
    fn from_blocks(blocks: impl IntoIterator<Item = IpBlock>) -> Self {
        blocks.into_iter().collect()
    }
    fn blocks(&self) -> impl Iterator<Item = IpBlock> + '_ {
        self.iter()
    }
    vectors::operations!(IpBlocks);
    fn claim(self) -> IpResources {
        IpResources::blocks(self)
    }
    fn issued(&self, claim: &IpResources, mode: Overclaim) -> Option<Self> {
        self.verify_issued(claim, mode).ok()
    }
    fn encoded(&self) -> Vec<u8> {
        octets_of(self.encode_ref())
    }
    fn sequence(&self) -> Vec<u8> {
        self.encoded()
    }
    fn take(octets: &[u8]) -> Option<Self> {
        Mode::Der.decode(octets, |cons: &mut decode::Constructed<_>| IpBlocks::take_from(cons)).ok()
    }
}

fn ip_block(min: u128, length: u32, bits: Option<u8>) -> IpBlock {
    let first = Addr::from_bits(min);
    match bits {
        Some(bits) => Prefix::new(first, bits).into(),
        None => AddressRange::new(first, Addr::from_bits(min + u128::from(length))).into(),
    }
}

/// A list, as in `lists.rt`.
#[derive(Clone, Copy)]
enum List {
    One,
    Other,
    Step(u32, u32),
}

/// The subject of a measurement.
#[derive(Clone, Copy)]
struct Measured {
    is_mixed: bool,
    count: usize,
}

impl Measured {
    fn list<S: Set>(self, list: List) -> Vec<S::Block> {
        (0..self.count).map_while(|at| self.block::<S>(list, u32::try_from(at).ok()?)).collect()
    }
    fn set<S: Set>(self, list: List) -> S {
        S::from_blocks(self.list::<S>(list))
    }
    fn block<S: Set>(self, list: List, at: u32) -> Option<S::Block> {
        match list {
            List::One => S::block(at, false, self.is_single(at)),
            List::Other => S::block(at, true, self.is_single(at.wrapping_add(1))),
            List::Step(period, step) => {
                let is_single = self.is_single(at);
                let least = if is_single { 0 } else { at % 8 + 1 };
                S::block_on_path(at, least + surplus(period, at, step), is_single)
            }
        }
    }
    fn is_single(self, at: u32) -> bool {
        self.is_mixed && splitmix64(at.into()) % 4 > 0
    }
    fn name<S: Set>(self, call: &str) -> String {
        format!("{}{}-{call}", if self.is_mixed { "mixed-" } else { "" }, S::KIND)
    }
    /// Makes a call, and prints its time and the size of its result.
    fn measure<S: Set, R>(self, call: &str, made: impl FnOnce() -> R, size: impl FnOnce(&R) -> usize, unit: &str) -> R {
        let (name, count) = (self.name::<S>(call), self.count);
        let start = Instant::now();
        let result = black_box(made());
        let micros = start.elapsed().as_micros();
        eprintln!("{name} {count} {micros}");
        println!("{name} at {count} blocks: {} {unit}", size(&result));
        result
    }
}

fn splitmix64(seed: u64) -> u64 {
    let first = seed.wrapping_add(0x9e37_79b9_7f4a_7c15);
    let second = (first ^ (first >> 30)).wrapping_mul(0xbf58_476d_1ce4_e5b9);
    let third = (second ^ (second >> 27)).wrapping_mul(0x94d0_49bb_1331_11eb);
    third ^ (third >> 31)
}

fn refuses(step: u32) -> bool {
    step % 2 == 1
}

fn differs(period: u32, at: u32, step: u32) -> bool {
    (at + 1).abs_diff(step).checked_rem(period) == Some(0)
}

fn surplus(period: u32, at: u32, step: u32) -> u32 {
    let overclaimed = if step > 0 && !refuses(step) && differs(period, at, step) { 2 } else { 0 };
    let later = (step + 1..=STEPS).filter(|later| refuses(*later) && differs(period, at, *later));
    overclaimed + u32::try_from(later.count()).expect("steps")
}

fn measure_calls<S: Set>(run: Measured) {
    let count = |set: &S| set.blocks().count();
    let blocks = run.list::<S>(List::One);
    let one = run.measure::<S, _>("from_blocks", || S::from_blocks(blocks.iter().copied()), count, "blocks");
    let other = run.set::<S>(List::Other);
    let union = run.measure::<S, _>("union", || one.union(&other), count, "blocks");
    run.measure::<S, _>("intersection", || one.intersection(&other), count, "blocks");
    run.measure::<S, _>("difference", || one.difference(&other), count, "blocks");
    run.measure::<S, _>("contains", || union.contains(&one), |it| usize::from(*it), "set");
    run.measure::<S, _>("encode", || one.encoded(), Vec::len, "octets");
    let octets = one.sequence();
    run.measure::<S, _>("lenient", || S::take(&octets).expect("octets"), count, "blocks");
}

fn measure_path<S: Set>(run: Measured, period: u32) {
    let first: S = run.set(List::Step(period, 0));
    let mode = |step| if refuses(step) { Overclaim::Refuse } else { Overclaim::Trim };
    let steps: Vec<_> = (1..=STEPS).map(|step| (run.set::<S>(List::Step(period, step)).claim(), mode(step))).collect();
    let verify = || {
        let (claim, mode) = &steps[0];
        let left = first.issued(claim, *mode)?;
        steps[1..].iter().try_fold(left, |left, (claim, mode)| left.issued(claim, *mode))
    };
    run.measure::<S, _>("path", || verify().expect("a path"), |set| set.blocks().count(), "blocks");
    let mut left = first.intersection(&first);
    let mut fewest = run.count;
    for step in 1..=STEPS {
        let claim: S = run.set(List::Step(period, step));
        fewest = fewest.min(left.blocks().zip(claim.blocks()).filter(|(one, other)| one != other).count());
        left = left.intersection(&claim);
    }
    println!("{} of period {period}: at each step {fewest} or more blocks differ", run.name::<S>("path"));
}

fn main() {
    let (mut is_mixed, mut is_path, mut blocks) = (false, false, None);
    for word in env::args().skip(1) {
        match (word.as_str(), word.parse()) {
            ("mixed" | "ranges", _) => (is_mixed, is_path, blocks) = (word == "mixed", false, None),
            ("path", _) => is_path = true,
            (_, Err(_)) => panic!("{word}: not a word of this program"),
            (_, Ok(number)) if !is_path => {
                measure_calls::<AsBlocks>(Measured { is_mixed, count: number });
                measure_calls::<IpBlocks>(Measured { is_mixed, count: number });
            }
            (_, Ok(number)) => match blocks.take() {
                None => blocks = Some(number),
                Some(count) => {
                    let period = u32::try_from(number).unwrap_or(u32::MAX);
                    measure_path::<AsBlocks>(Measured { is_mixed, count }, period);
                    measure_path::<IpBlocks>(Measured { is_mixed, count }, period);
                }
            },
        }
    }
}
