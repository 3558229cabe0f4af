//! Tests AS numbers, prefixes, VRPs and routes: texts, checked constructors, conversions, accessors, orders and errors.
use pigyelund::{
    AnswerError, ApplySlurmError, Asn, Changes, Covering, Der, Extensions, Family, InvalidReason,
    Prefix, ResourceError, Resources, Route, Subnets, Table, TableError, UnexpiredVrps, Validity,
    ValueError, Vrp, VrpFault,
};
use std::collections::{BTreeSet, HashMap, HashSet};
use std::error::Error;
use std::fmt::{Debug, Display};
use std::net::{IpAddr, Ipv4Addr, Ipv6Addr};
use std::str::FromStr;

fn ip(text: &str) -> IpAddr {
    text.parse().unwrap()
}

fn prefix(address: &str, len: u8) -> Prefix {
    Prefix::new(ip(address), len).unwrap()
}

fn vrp(address: &str, len: u8, max_len: u8, asn: u32) -> Vrp {
    Vrp::new(prefix(address, len), max_len, asn).unwrap()
}

/// Reads a text, and checks that it is also what the value prints.
fn same<T: FromStr + Display>(text: &str) -> T
where
    T::Err: Debug,
{
    let value: T = text.parse().unwrap();
    assert_eq!(value.to_string(), text);
    value
}

/// Returns the text of the error of a text.
fn refused<T: FromStr<Err = ValueError> + Debug>(text: &str) -> String {
    text.parse::<T>().unwrap_err().to_string()
}

#[test]
fn texts_of_prefixes() {
    let ten: Prefix = same("10.0.0.0/8");
    assert_eq!(
        (ten.addr(), ten.prefix_len(), ten.family()),
        (ip("10.0.0.0"), 8, Family::V4)
    );
    let six: Prefix = same("2001:db8::/32");
    assert_eq!(
        (six.addr(), six.prefix_len(), six.family()),
        (ip("2001:db8::"), 32, Family::V6)
    );
    for text in ["0.0.0.0/0", "255.255.255.255/32", "::/0", "ffff::ffff/128"] {
        same::<Prefix>(text);
    }
    let all = ["::/0", "10.0.0.0/9", "0.0.0.0/0", "10.0.0.0/8"];
    let mut all = all.map(|text| text.parse::<Prefix>().unwrap());
    all.sort();
    let sorted = all.map(|prefix| prefix.to_string());
    assert_eq!(sorted, ["0.0.0.0/0", "10.0.0.0/8", "10.0.0.0/9", "::/0"]);
}

#[test]
fn wrong_texts_of_prefixes() {
    let wrong = [
        ("", r#""": expected ADDRESS/LENGTH, for example 10.0.0.0/8"#),
        (
            "10.0.0.0",
            r#""10.0.0.0": expected ADDRESS/LENGTH, for example 10.0.0.0/8"#,
        ),
        (
            "10.0.0/8",
            r#"address "10.0.0": expected an IPv4 or IPv6 address"#,
        ),
        (
            " 10.0.0.0/8",
            r#"address " 10.0.0.0": expected an IPv4 or IPv6 address"#,
        ),
        ("10.0.0.0/", r#"prefix length "": expected 0 to 32"#),
        ("10.0.0.0/+8", r#"prefix length "+8": expected 0 to 32"#),
        ("10.0.0.0/8\n", r#"prefix length "8\n": expected 0 to 32"#),
        ("::/300", r#"prefix length "300": expected 0 to 128"#),
        (
            "10.0.0.0/33",
            "prefix length 33 of 10.0.0.0/33 is above 32: expected 0 to 32",
        ),
        (
            "::/129",
            "prefix length 129 of ::/129 is above 128: expected 0 to 128",
        ),
        (
            "10.1.0.0/8",
            "prefix 10.1.0.0/8 has host bits set: expected 10.0.0.0/8",
        ),
        (
            "2001:db8::1/32",
            "prefix 2001:db8::1/32 has host bits set: expected 2001:db8::/32",
        ),
    ];
    for (text, error) in wrong {
        assert_eq!(refused::<Prefix>(text), error);
    }
}

#[test]
fn texts_of_as_numbers() {
    for (text, number) in [("AS0", 0), ("AS64496", 64496), ("AS4294967295", u32::MAX)] {
        let asn: Asn = same(text);
        assert_eq!((asn, asn.number()), (Asn::new(number), number));
        assert_eq!((Asn::from(number), u32::from(asn)), (asn, number));
        let others = [number.to_string(), format!("as{number}")];
        assert_eq!(others.map(|it| it.parse()), [Ok(asn), Ok(asn)]);
    }
    assert_eq!([Asn::MIN, Asn::MAX].map(Asn::number), [0, u32::MAX]);
    for text in [
        "",
        "AS",
        "AS-1",
        "+1",
        " 1",
        "AS 1",
        "4294967296",
        "ä1",
        "A1",
        "AS1.0",
    ] {
        let error = format!("AS number {text:?}: expected AS0 to AS4294967295");
        assert_eq!(refused::<Asn>(text), error);
    }
}

#[test]
fn texts_of_vrps() {
    let found: Vrp = same("10.0.0.0/8-16 AS64496");
    assert_eq!(found, vrp("10.0.0.0", 8, 16, 64496));
    assert_eq!(
        format!("{found:?}"),
        "Vrp { prefix: 10.0.0.0/8, max_len: 16, asn: 64496 }"
    );
    let found: Vrp = same("2001:db8::/32-48 AS0");
    assert_eq!(found, vrp("2001:db8::", 32, 48, 0));
    assert_eq!(found.prefix(), "2001:db8::/32".parse().unwrap());
    assert_eq!((found.max_len(), found.asn()), (48, Asn::MIN));
    // Without a maximum length it is the prefix length. The letters AS may be absent. A plus sign is ignored.
    for text in [
        "10.0.0.0/8 AS1",
        "10.0.0.0/8 1",
        "10.0.0.0/8-8 as1",
        "10.0.0.0/+8-+8 AS+1",
    ] {
        assert_eq!(text.parse(), Ok(vrp("10.0.0.0", 8, 8, 1)));
    }
    same::<Vrp>("0.0.0.0/0-32 AS4294967295");
}

#[test]
fn wrong_texts_of_vrps() {
    let (asn, prefix) = ("bad AS number", "bad prefix");
    let (format, most) = (
        "maximum length is no number from 0 to 255",
        "bad maximum length of the prefix",
    );
    let wrong = [
        ("10.0.0.0/8-16", asn),
        ("10.0.0.0/8-16 ", asn),
        ("10.0.0.0/8 AS", asn),
        ("10.0.0.0/8 AS-1", asn),
        ("10.0.0.0/8 AS4294967296", asn),
        ("10.0.0.0/8 ä1", asn),
        ("10.0.0.0/16-x AS1", format),
        ("10.0.0.0/16-256 AS1", format),
        ("10.0.0.0/16-8 AS1", most),
        ("10.0.0.0/16-33 AS1", most),
        ("::/16-129 AS1", most),
        ("10.0.0.0 AS1", prefix),
        ("10.1.0.0/8 AS1", prefix),
    ];
    for (text, why) in wrong {
        let form = "expected PREFIX-MAXLEN ASN, for example 10.0.0.0/8-16 AS64496";
        let error = format!("VRP: {why}: {text:?}: {form}");
        assert_eq!(refused::<Vrp>(text), error);
    }
    let fault = VrpFault::MaxLen;
    let text = "10.0.0.0/8-7 AS1".to_string();
    assert_eq!(
        text.parse::<Vrp>(),
        Err(ValueError::VrpText { text, fault })
    );
}

#[test]
fn texts_of_routes() {
    let route: Route = same("10.0.0.0/8 AS64496");
    assert_eq!(route, Route::new(prefix("10.0.0.0", 8), 64496));
    assert_eq!("10.0.0.0/+8 AS+64496".parse(), Ok(route));
    assert_eq!(
        format!("{route:?}"),
        "Route { prefix: 10.0.0.0/8, asn: 64496 }"
    );
    assert_eq!(route.prefix(), "10.0.0.0/8".parse().unwrap());
    assert_eq!(
        (route.prefix().addr(), route.asn()),
        (ip("10.0.0.0"), Asn::new(64496))
    );
    let wrong = [
        ("10.0.0.0/8", "bad AS number"),
        ("10.0.0.0/8-16 AS1", "bad prefix"),
        ("10.0.0.0/8,AS1", "a comma where a space is expected"),
        ("AS1 10.0.0.0/8", "the first word is no prefix"),
    ];
    for (text, why) in wrong {
        let form = "expected PREFIX ASN, for example 10.0.0.0/8 AS64496";
        let error = format!("route: {why}: {text:?}: {form}");
        assert_eq!(refused::<Route>(text), error);
    }
}

#[test]
fn checked_values() {
    let (ten, host) = (ip("10.0.0.0"), ip("10.1.0.0"));
    let bits = ValueError::HostBits {
        address: host,
        len: 8,
    };
    assert_eq!(Prefix::new(host, 8), Err(bits));
    for (address, len) in [(ten, 33), (ten, 255), (ip("::"), 129)] {
        let long = ValueError::PrefixLen { address, len };
        assert_eq!(Prefix::new(address, len), Err(long));
    }
    let prefix = Prefix::new(ten, 8).unwrap();
    for max_len in [0, 7, 33, 255] {
        let wrong = ValueError::MaxLen { prefix, max_len };
        assert_eq!(Vrp::new(prefix, max_len, 1), Err(wrong));
    }
    for max_len in 8..=32 {
        let found = Vrp::new(prefix, max_len, Asn::new(1)).unwrap();
        assert_eq!(
            (found.prefix(), found.max_len(), found.asn()),
            (prefix, max_len, Asn::new(1))
        );
    }
    let six = Prefix::new(ip("2001:db8::"), 32).unwrap();
    assert!(Vrp::new(six, 128, 1).is_ok() && Vrp::new(six, 129, 1).is_err());
}

/// Prefixes, AS numbers, VRPs and routes have an order and a hash, which agree with `==`.
#[test]
fn orders_of_values() {
    let routes = [
        "::/0 AS1",
        "10.0.0.0/8 AS2",
        "9.0.0.0/8 AS3",
        "10.0.0.0/8 AS1",
        "10.0.0.0/9 AS0",
    ];
    let mut routes = routes.map(|it| it.parse::<Route>().unwrap());
    routes.sort();
    let sorted = [
        "9.0.0.0/8 AS3",
        "10.0.0.0/8 AS1",
        "10.0.0.0/8 AS2",
        "10.0.0.0/9 AS0",
        "::/0 AS1",
    ];
    assert_eq!(routes.map(|it| it.to_string()), sorted);
    let vrps = [
        "::/0-0 AS1",
        "10.0.0.0/8-9 AS1",
        "10.0.0.0/8-8 AS2",
        "10.0.0.0/8-8 AS1",
    ];
    let mut vrps = vrps.map(|it| it.parse::<Vrp>().unwrap());
    vrps.sort();
    let sorted = [
        "10.0.0.0/8-8 AS1",
        "10.0.0.0/8-8 AS2",
        "10.0.0.0/8-9 AS1",
        "::/0-0 AS1",
    ];
    assert_eq!(vrps.map(|it| it.to_string()), sorted);
    assert!(vrps[0] < vrps[1] && routes[0] < routes[1]);
    let twice = [vrps, vrps].concat();
    assert_eq!(twice.iter().collect::<HashSet<_>>().len(), vrps.len());
    assert_eq!(twice.iter().collect::<BTreeSet<_>>().len(), vrps.len());
    assert!(Asn::new(9) < Asn::new(10) && Family::V4 < Family::V6);
}

#[test]
fn std_conversions() {
    let (v4, v6) = (
        Ipv4Addr::new(10, 0, 0, 0),
        Ipv6Addr::from(0x2001_0db8_u128 << 96),
    );
    assert_eq!(Prefix::from(v4).to_string(), "10.0.0.0/32");
    assert_eq!(Prefix::from(IpAddr::from(v4)), Prefix::from(v4));
    assert_eq!(Prefix::from(v6).to_string(), "2001:db8::/128");
    assert_eq!(Prefix::from(IpAddr::from(v6)), Prefix::from(v6));
    let ten = Prefix::try_from((v4, 8)).unwrap();
    assert_eq!(Prefix::try_from((IpAddr::from(v4), 8)), Ok(ten));
    assert_eq!(<(IpAddr, u8)>::from(ten), (IpAddr::from(v4), 8));
    assert_eq!(
        Prefix::try_from((v6, 32)).unwrap().to_string(),
        "2001:db8::/32"
    );
    assert!(Prefix::try_from((v6, 31)).is_ok() && Prefix::try_from((v6, 28)).is_err());
    assert_eq!(
        [v4.into(), v6.into()].map(|it: IpAddr| Family::from(it)),
        [Family::V4, Family::V6]
    );
}

/// Compares the calls of a prefix with a mask of each length.
#[test]
fn addresses_of_prefixes() {
    let (v4, v6) = (Ipv4Addr::from(u32::MAX), Ipv6Addr::from(u128::MAX));
    for len in 0..=32_u8 {
        let bits = (u64::MAX << (32 - len)) as u32;
        let found = Prefix::containing(v4, len).unwrap();
        assert_eq!(
            <(IpAddr, u8)>::from(found),
            (Ipv4Addr::from(bits).into(), len)
        );
        assert_eq!(Prefix::new(found.addr(), len), Ok(found));
        assert_eq!(
            (found.network(), found.broadcast()),
            (found.addr(), v4.into())
        );
        assert_eq!(found.netmask(), IpAddr::from(Ipv4Addr::from(bits)));
        assert_eq!(found.hostmask(), IpAddr::from(Ipv4Addr::from(!bits)));
        assert_eq!((found.prefix_len(), found.max_prefix_len()), (len, 32));
    }
    for len in 0..=128_u8 {
        let bits = (0..len).fold(0, |bits, at| bits | 1_u128 << (127 - at));
        let found = Prefix::containing(v6, len).unwrap();
        assert_eq!(
            <(IpAddr, u8)>::from(found),
            (Ipv6Addr::from(bits).into(), len)
        );
        assert_eq!(Prefix::new(found.addr(), len), Ok(found));
        assert_eq!(
            (found.network(), found.broadcast()),
            (found.addr(), v6.into())
        );
        assert_eq!(found.netmask(), IpAddr::from(Ipv6Addr::from(bits)));
        assert_eq!(found.hostmask(), IpAddr::from(Ipv6Addr::from(!bits)));
        assert_eq!((found.prefix_len(), found.max_prefix_len()), (len, 128));
    }
    for (address, len) in [(IpAddr::from(v4), 33), (v4.into(), 255), (v6.into(), 129)] {
        assert_eq!(
            Prefix::containing(address, len),
            Err(ValueError::PrefixLen { address, len })
        );
    }
}

/// The calls that users of the crate `ipnet` know.
#[test]
fn prefixes_of_prefixes() {
    let of = |text: &str| -> Prefix { text.parse().unwrap() };
    let ten = of("10.0.0.0/8");
    assert!(ten.contains(ten) && ten.contains(of("10.128.0.0/9")));
    assert!(ten.contains(ip("10.255.255.255")) && !ten.contains(ip("11.0.0.0")));
    assert!(!ten.contains(of("10.0.0.0/7")) && !ten.contains(ip("a00::")));
    assert!(of("0.0.0.0/0").contains(ten) && !of("::/0").contains(ten));
    assert_eq!(of("11.0.0.0/8").supernet(), Some(of("10.0.0.0/7")));
    assert_eq!(of("0.0.0.0/0").supernet(), None);
    assert_eq!(of("::/1").supernet(), Some(of("::/0")));
    assert!(ten.is_sibling(&of("11.0.0.0/8")) && !ten.is_sibling(&ten));
    for other in ["9.0.0.0/8", "10.0.0.0/9", "::/0", "::/8"] {
        assert!(!ten.is_sibling(&of(other)) && !of(other).is_sibling(&ten));
    }
    assert!(!of("::/0").is_sibling(&of("0.0.0.0/0")));
    let texts = |text: &str, len| -> Vec<String> {
        let subnets = of(text).subnets(len).unwrap();
        subnets.map(|it| it.to_string()).collect()
    };
    assert_eq!(texts("10.0.0.0/8", 8), ["10.0.0.0/8"]);
    let quarters = [
        "10.0.0.0/10",
        "10.64.0.0/10",
        "10.128.0.0/10",
        "10.192.0.0/10",
    ];
    assert_eq!(texts("10.0.0.0/8", 10), quarters);
    let last = ["255.255.255.254/32", "255.255.255.255/32"];
    assert_eq!(texts("255.255.255.254/31", 32), last);
    assert_eq!(texts("::/0", 1), ["::/1", "8000::/1"]);
    assert_eq!(of("::/0").subnets(128).unwrap().nth(2), Some(of("::2/128")));
    for (text, len, wanted) in [
        (
            "10.0.0.0/8",
            7,
            "is below prefix length 8: expected 8 to 32",
        ),
        ("10.0.0.0/8", 33, "is above 32: expected 8 to 32"),
        ("::/9", 8, "is below prefix length 9: expected 9 to 128"),
    ] {
        let error = of(text).subnets(len).unwrap_err();
        assert_eq!(
            error.to_string(),
            format!("subnet length {len} of {text} {wanted}")
        );
    }
}

/// DER is printed as hexadecimal digits, which the program `respath` reads.
#[test]
fn debug_of_der() {
    let ip = [0x30, 0x00];
    let der = Der {
        asn: vec![],
        ip: ip.to_vec(),
    };
    assert_eq!(format!("{der:?}"), "Der { asn: -, ip: 3000 }");
    let extensions = Extensions {
        asn: None,
        ip: Some(&ip),
    };
    assert_eq!(
        format!("{extensions:?}"),
        "Extensions { asn: None, ip: Some(3000) }"
    );
    assert_eq!(der.extensions(), extensions);
}

/// An error has a source only if its own text does not have the text of the source.
#[test]
fn wrapped_errors() {
    let address = "10.0.0/8".parse::<Prefix>().unwrap_err();
    let invalid = "10.0.0".parse::<IpAddr>().unwrap_err();
    let source = address.source().unwrap();
    assert_eq!(source.to_string(), invalid.to_string());
    assert!(!address.to_string().contains(&source.to_string()));
    let mut errors = HashSet::from([address.clone(), address]);
    for text in ["10.1.0.0/8", "x", "10.0.0.0/x", "10.0.0.0/33"] {
        let error = text.parse::<Prefix>().unwrap_err();
        assert!(error.source().is_none(), "{error}");
        errors.insert(error);
    }
    assert_eq!(errors.len(), 5);
}

/// Values may go to other threads, and errors into the errors of other crates.
#[test]
fn types_are_send_and_sync() {
    fn share<T: Send + Sync + 'static>() {}
    share::<(Resources, Table, Asn, Prefix, Vrp, Route)>();
    share::<(Covering, Changes, UnexpiredVrps, Subnets, Der)>();
    fn accept<T: Error + Send + Sync + 'static>() {}
    accept::<ResourceError>();
    accept::<TableError>();
    accept::<ValueError>();
    accept::<ApplySlurmError>();
    accept::<AnswerError>();
}

#[test]
fn validities_are_keys() {
    let invalid = Validity::Invalid(InvalidReason::As);
    let mut counts = HashMap::new();
    for validity in [Validity::Valid, invalid, Validity::Valid] {
        *counts.entry(validity).or_insert(0) += 1;
    }
    let counts = [Validity::Valid, Validity::NotFound, invalid].map(|it| counts.get(&it).copied());
    assert_eq!(counts, [Some(2), None, Some(1)]);
    // The numbers of RFC 8097, 2.
    let length = Validity::Invalid(InvalidReason::Length);
    let numbers = [Validity::Valid, Validity::NotFound, invalid, length].map(Validity::number);
    assert_eq!(numbers, [0, 1, 2, 2]);
}
