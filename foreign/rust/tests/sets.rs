//! Tests sets of resources: texts, operators, traits, errors, and one set on several threads.
use pigyelund::{
    answer, Asn, Certificate, DerFault, Encoding, Extensions, Family, Kind, Mode, Prefix, Reason,
    Resources, TextFault, Vrp,
};
use std::collections::HashSet;
use std::error::Error;
use std::net::IpAddr;
use std::thread;

fn set(text: &str) -> Resources {
    text.parse().unwrap()
}

fn prefix(text: &str) -> Prefix {
    text.parse().unwrap()
}

/// Reads a text, and checks what is written for it.
#[test]
fn texts_of_sets() {
    for text in [
        "",
        "AS64496",
        "AS1-AS3, AS64496",
        "10.0.0.0/8",
        "10.0.0.1-10.0.0.9, 2001:db8::/32",
        "AS0-AS4294967295, 0.0.0.0/0, ::/0",
    ] {
        assert_eq!(set(text).to_string(), text);
        assert_eq!(format!("{:?}", set(text)), format!("Resources({text})"));
    }
    let mixed = set(" 2001:db8::1 , 64497,10.0.0.0/9,, AS64496 ,10.128.0.0/9,as64498");
    let text = "AS64496-AS64498, 10.0.0.0/8, 2001:db8::1/128";
    assert_eq!(mixed, set(text));
    assert_eq!(mixed.text(Kind::Asn).unwrap(), "AS64496-AS64498");
    assert_eq!(mixed.text(Kind::V4).unwrap(), "10.0.0.0/8");
    assert_eq!(set(&mixed.to_string()), mixed);
    assert_eq!(set("::ffff:10.0.0.1").text(Kind::V4).unwrap(), "");
    assert_eq!(
        Resources::from_text("10.0.0.0/8", Kind::V4),
        Ok(set("10.0.0.0/8"))
    );
}

#[test]
fn wrong_texts_of_sets() {
    for (text, fault) in [
        ("x", TextFault::Asn),
        ("AS2-AS1", TextFault::AsRange),
        ("10.0.0", TextFault::Address),
        ("10.0.0.0/33", TextFault::PrefixLen),
        ("10.0.0.2-10.0.0.1", TextFault::ReversedRange),
        ("2001:db8::/129", TextFault::PrefixLen),
    ] {
        let error = text.parse::<Resources>().unwrap_err();
        assert_eq!(error.reason(), Reason::BadText(fault), "{text}");
        assert_eq!((error.excess(), error.verified()), (None, None));
    }
    let error = Resources::from_text("::1", Kind::V4).unwrap_err();
    assert_eq!(error.reason(), Reason::BadText(TextFault::Family));
}

#[test]
fn operators_of_sets() {
    let (a, b) = (set("AS1-AS4, 10.0.0.0/8"), set("AS3-AS9, 2001:db8::/32"));
    let union = set("AS1-AS9, 10.0.0.0/8, 2001:db8::/32");
    let intersection = set("AS3-AS4");
    let difference = set("AS1-AS2, 10.0.0.0/8");
    let symmetric = set("AS1-AS2, AS5-AS9, 10.0.0.0/8, 2001:db8::/32");
    assert_eq!(a.union(&b), Ok(union.clone()));
    assert_eq!(a.intersection(&b), Ok(intersection.clone()));
    assert_eq!(a.difference(&b), Ok(difference.clone()));
    assert_eq!(a.symmetric_difference(&b), Ok(symmetric.clone()));
    let [c, d] = [&a, &b].map(Clone::clone);
    assert_eq!(
        [&a | &b, a.clone() | &b, &a | b.clone(), c | d],
        [(); 4].map(|_| union.clone())
    );
    let [c, d] = [&a, &b].map(Clone::clone);
    assert_eq!(
        (&a & &b, c & d),
        (intersection.clone(), intersection.clone())
    );
    let [c, d] = [&a, &b].map(Clone::clone);
    assert_eq!((&a - &b, c - d), (difference.clone(), difference.clone()));
    let [c, d] = [&a, &b].map(Clone::clone);
    assert_eq!((&a ^ &b, c ^ d), (symmetric.clone(), symmetric.clone()));
    let mut found = [a.clone(), a.clone(), a.clone(), a.clone()];
    found[0] |= &b;
    found[1] &= &b;
    found[2] -= &b;
    found[3] ^= b;
    assert_eq!(found, [union, intersection, difference, symmetric]);
}

#[test]
fn contents_of_sets() {
    let of = set("AS64496-AS64511, 10.0.0.0/8, 2001:db8::/32");
    assert!(of.contains(&of) && of.contains(&set("AS64500, 10.9.0.0/16")));
    assert!(of.contains(&Resources::default()) && !of.contains(&set("AS64512")));
    assert!(of.contains(Asn::new(64511)) && !of.contains(Asn::new(64512)));
    assert!(of.contains(prefix("10.0.0.0/8")) && !of.contains(prefix("10.0.0.0/7")));
    assert!(of.contains(prefix("2001:db8:7::/48")) && !of.contains(prefix("::/0")));
    let [inside, outside] = ["10.1.2.3", "11.0.0.0"].map(|it| it.parse::<IpAddr>().unwrap());
    assert!(of.contains(inside) && !of.contains(outside));
    // A ROA: its prefixes have to be in the set, and its AS does not.
    let roa = ["10.0.0.0/9-24 AS1", "10.128.0.0/9 AS1"].map(|it| it.parse::<Vrp>().unwrap());
    assert!(of.contains(&roa[0]) && of.contains(&roa[..]));
    let more: Vrp = "12.0.0.0/8 AS64496".parse().unwrap();
    assert!(!of.contains(&more) && !of.contains(&[roa[0], more][..]));
    // A prefix of IPv6 with the same octets as one of IPv4.
    assert!(!of.contains(prefix("a00::/8")));
}

#[test]
fn lists_of_sets() {
    let of = set("AS64496-AS64511, AS1, 10.0.0.0-10.2.255.255, 2001:db8::/32");
    let texts = |family| -> Vec<String> {
        let prefixes = of.prefixes(family).unwrap();
        prefixes.iter().map(Prefix::to_string).collect()
    };
    assert_eq!(texts(Family::V4), ["10.0.0.0/15", "10.2.0.0/16"]);
    assert_eq!(texts(Family::V6), ["2001:db8::/32"]);
    let [one, least, greatest] = [1, 64496, 64511].map(Asn::new);
    assert_eq!(of.as_ranges(), Ok(vec![one..=one, least..=greatest]));
    let [least, greatest] = ["10.0.0.0", "10.2.255.255"].map(|it| it.parse::<IpAddr>().unwrap());
    assert_eq!(of.ip_ranges(Family::V4), Ok(vec![least..=greatest]));
    let six = prefix("2001:db8::/32");
    assert_eq!(
        of.ip_ranges(Family::V6),
        Ok(vec![six.network()..=six.broadcast()])
    );
}

#[test]
fn traits_of_sets() {
    let empty = Resources::default();
    assert!(empty.is_empty() && !set("AS0").is_empty() && !set("::/0").is_empty());
    assert_eq!(empty, set(""));
    let sets = [
        "AS1-AS2",
        "AS1, AS2",
        "10.0.0.0/8",
        "10.0.0.0/9, 10.128.0.0/9",
    ]
    .map(set);
    assert_eq!(HashSet::from(sets.clone()).len(), 2);
    let all: Resources = sets.into_iter().collect();
    assert_eq!(all, set("AS1-AS2, 10.0.0.0/8"));
    let prefixes = ["10.0.0.0/8", "2001:db8::/32", "10.0.0.0/9", "11.0.0.0/8"].map(prefix);
    let mut found: Resources = prefixes.into_iter().collect();
    assert_eq!(found, set("10.0.0.0/7, 2001:db8::/32"));
    found.extend([3, 1, 2].map(Asn::new));
    assert_eq!(found, set("AS1-AS3, 10.0.0.0/7, 2001:db8::/32"));
    found.extend([prefix("12.0.0.0/8")]);
    found.extend([set("AS9")]);
    assert_eq!(
        found,
        set("AS1-AS3, AS9, 10.0.0.0-12.255.255.255, 2001:db8::/32")
    );
    let none: Resources = Vec::<Prefix>::new().into_iter().collect();
    assert!(none.is_empty());
}

/// Collects each number of sets from 0 to 9, and then many. Sets that are collected are not changed.
#[test]
fn collected_sets() {
    for count in 0..10 {
        let sets: Vec<Resources> = (0..count)
            .map(|at| set(&format!("AS{}, 10.{at}.0.0/16", 2 * at)))
            .collect();
        let texts: Vec<String> = sets.iter().map(Resources::to_string).collect();
        let all: Resources = sets.iter().cloned().collect();
        assert_eq!(all, set(&texts.join(",")));
        assert_eq!(all.as_ranges().unwrap().len(), count);
        let left: Vec<String> = sets.iter().map(Resources::to_string).collect();
        assert_eq!(left, texts);
    }
    // A union of all sets so far with the next one would copy 20,000 * 20,000 / 2 AS numbers.
    let each = (0..20_000).map(|at| -> Resources { [Asn::new(2 * at)].into_iter().collect() });
    let all: Resources = each.collect();
    assert_eq!(all.as_ranges().unwrap().len(), 20_000);
}

#[test]
fn der_of_sets() {
    let ten = [0x30, 0x0c, 0x30, 0x0a, 4, 2, 0, 1, 0x30, 4, 3, 2, 0, 10];
    let der = set("10.0.0.0/8").der().unwrap();
    assert_eq!((&der.asn[..], &der.ip[..]), (&[][..], &ten[..]));
    let extensions = Extensions {
        asn: None,
        ip: Some(&ten),
    };
    assert_eq!(der.extensions(), extensions);
    assert_eq!(
        Resources::read(extensions, Encoding::Strict),
        Ok(set("10.0.0.0/8"))
    );
    assert_eq!(
        Resources::read(Extensions::default(), Encoding::Strict),
        Ok(set(""))
    );
    // An extension that is present and empty is invalid, in a set as in a certificate.
    let truncated = [Reason::BadAs, Reason::BadIp].map(|it| it(DerFault::Truncated));
    // The first fault is that of the AS identifiers. "inherit" is not a fault of the octets.
    let bad_tag = Reason::BadAs(DerFault::BadTag);
    let inherit = [0x30, 4, 0xa0, 2, 5, 0];
    for (asn, ip, reason) in [
        (Some(&[][..]), None, truncated[0]),
        (None, Some(&[][..]), truncated[1]),
        (Some(&[][..]), Some(&[][..]), truncated[0]),
        (Some(&[5, 0][..]), Some(&[][..]), bad_tag),
        (Some(&inherit[..]), Some(&[][..]), truncated[1]),
    ] {
        let empty = Extensions { asn, ip };
        let as_set = Resources::read(empty, Encoding::Lenient).unwrap_err();
        let as_cert = set("AS1")
            .verify(empty, Encoding::Lenient, Mode::Trim)
            .unwrap_err();
        assert_eq!([as_set.reason(), as_cert.reason()], [reason; 2]);
    }
    let inherits = Extensions {
        asn: Some(&inherit),
        ip: None,
    };
    let refused = Resources::read(inherits, Encoding::Lenient).unwrap_err();
    assert_eq!(refused.reason(), Reason::Inherited);
    let issuer = set("AS1-AS9, 10.0.0.0/8");
    assert_eq!(
        issuer.verify(inherits, Encoding::Strict, Mode::Refuse),
        Ok(set("AS1-AS9"))
    );
}

/// Makes a call and passes its error on by `?`, which must accept each error type.
fn pass_on(at: usize) -> Result<(), Box<dyn Error>> {
    let issuer = set("10.0.0.0/8");
    let (own, claim) = (issuer.der()?, set("10.0.0.0/8, 12.0.0.0/8").der()?);
    let certificate = |extensions| Certificate {
        extensions,
        mode: Mode::Refuse,
    };
    match at {
        0 => issuer
            .verify(claim.extensions(), Encoding::Lenient, Mode::Refuse)
            .map(drop)?,
        1 => {
            let path = [
                certificate(own.extensions()),
                certificate(claim.extensions()),
            ];
            issuer.verify_path(&path, Encoding::Lenient).map(drop)?
        }
        2 => answer("norm as x").map(drop)?,
        _ => answer(b"norm as 1").map(drop)?,
    }
    Ok(())
}

#[test]
fn errors_of_sets() {
    let texts = [
        "overclaimed IPv4 resources".into(),
        "after 1 certificates: overclaimed IPv4 resources".into(),
        pigyelund::status_text(pigyelund_sys::PIGY_BAD_QUERY).to_string(),
    ];
    for (at, text) in texts.iter().enumerate() {
        let error = pass_on(at).unwrap_err();
        assert_eq!(error.to_string(), *text);
        // The text is complete, so there is no source that repeats a part of it.
        assert!(error.source().is_none());
    }
    assert!(pass_on(texts.len()).is_ok());
    let claim = set("10.0.0.0/7, AS1").der().unwrap();
    let error = set("10.0.0.0/8, AS1")
        .verify(claim.extensions(), Encoding::Strict, Mode::Refuse)
        .unwrap_err();
    assert_eq!(error.reason(), Reason::Overclaimed(Kind::V4));
    assert_eq!(error.excess(), Some(&set("11.0.0.0/8")));
    assert_eq!(
        format!("{error:?}"),
        "ResourceError { reason: Overclaimed(V4), excess: Resources(11.0.0.0/8) }"
    );
    assert_eq!(error.clone(), error);
    let absent = set("AS1").verify(Extensions::default(), Encoding::Strict, Mode::Trim);
    assert_eq!(absent.unwrap_err().reason(), Reason::Absent);
}

/// Threads verify certificates by one set, make other sets from it, and drop their copies of it.
#[test]
fn a_set_is_used_on_threads() {
    let issuer: Resources = (0..4000).map(|at| Asn::new(2 * at)).collect();
    let text = issuer.to_string();
    thread::scope(|scope| {
        for turn in 0..8 {
            let (shared, own) = (&issuer, issuer.clone());
            scope.spawn(move || {
                for at in (turn..4000).step_by(40) {
                    let one = set(&format!("AS{}", 2 * at));
                    let der = one.der().unwrap();
                    let found = own.verify(der.extensions(), Encoding::Strict, Mode::Refuse);
                    assert_eq!(found.as_ref(), Ok(&one));
                    assert!(
                        shared.contains(Asn::new(2 * at)) && !own.contains(Asn::new(2 * at + 1))
                    );
                    assert_eq!((shared - &one) | &one, own);
                }
            });
        }
    });
    assert_eq!(issuer.to_string(), text);
    // A copy outlives the set that it was made from.
    let copy = issuer.clone();
    drop(issuer);
    assert_eq!(
        thread::spawn(move || copy.to_string()).join().unwrap(),
        text
    );
}
