//! Tests SLURM files: the example of RFC 8416, filters and assertions, and the faults of files and items.
use pigyelund::{
    apply_slurm, status_text, ApplySlurmError, Reason, SlurmFault, SlurmList, SlurmMember, Vrp,
};
use std::error::Error;

/// The example of RFC 8416, 3.5.
const EXAMPLE: &str = r#"
{
  "slurmVersion": 1,
  "validationOutputFilters": {
    "prefixFilters": [
      {
        "prefix": "192.0.2.0/24",
        "comment": "All VRPs encompassed by prefix"
      },
      {
        "asn": 64496,
        "comment": "All VRPs matching ASN"
      },
      {
        "prefix": "198.51.100.0/24",
        "asn": 64497,
        "comment": "All VRPs encompassed by prefix, matching ASN"
      }
    ],
    "bgpsecFilters": [
      {
        "asn": 64496,
        "comment": "All keys for ASN"
      },
      {
        "SKI": "Zm9v",
        "comment": "Key matching Router SKI"
      },
      {
        "asn": 64497,
        "SKI": "YmFy",
        "comment": "Key for ASN 64497 matching Router SKI"
      }
    ]
  },
  "locallyAddedAssertions": {
    "prefixAssertions": [
      {
        "asn": 64496,
        "prefix": "198.51.100.0/24",
        "comment": "My other important route"
      },
      {
        "asn": 64496,
        "prefix": "2001:DB8::/32",
        "maxPrefixLength": 48,
        "comment": "My other important de-aggregated routes"
      }
    ],
    "bgpsecAssertions": [
      {
        "asn": 64496,
        "comment" : "My known key for my important ASN",
        "SKI": "<some base64 SKI>",
        "routerPublicKey": "<some base64 public key>"
      }
    ]
  }
}
"#;

fn vrps(texts: &[&str]) -> Vec<Vrp> {
    texts.iter().map(|it| it.parse().unwrap()).collect()
}

/// Returns a file with the items of one list.
fn with_items(list: &str, items: &str) -> String {
    let of = |name: &str| {
        let items = if name == list { items } else { "" };
        format!(r#""{name}": [{items}]"#)
    };
    let (filters, keys) = (of("prefixFilters"), of("bgpsecFilters"));
    let (added, added_keys) = (of("prefixAssertions"), of("bgpsecAssertions"));
    format!(
        r#"{{"slurmVersion": 1, "validationOutputFilters": {{{filters}, {keys}}},
        "locallyAddedAssertions": {{{added}, {added_keys}}}}}"#
    )
}

fn refused(file: &str) -> ApplySlurmError {
    apply_slurm(file.as_bytes(), &[]).unwrap_err()
}

#[test]
fn the_example_of_rfc_8416() {
    let kept = [
        "192.0.0.0/16-24 AS64497", // covers 192.0.2.0/24, and is not inside it
        "192.0.3.0/24 AS64497",
        "198.51.100.0/24 AS64498",
        "198.51.0.0/16-24 AS64497",
        "2001:db8::/32 AS64497",
    ];
    let removed = [
        "192.0.2.0/24 AS64497",
        "192.0.2.128/25 AS0",
        "10.0.0.0/8 AS64496",
        "::/0 AS64496",
        "198.51.100.0/24-32 AS64497",
        "198.51.100.128/25 AS64497",
    ];
    let added = vrps(&["198.51.100.0/24 AS64496", "2001:db8::/32-48 AS64496"]);
    assert_eq!(apply_slurm(EXAMPLE.as_bytes(), &[]), Ok(added.clone()));
    // The VRPs keep their order, and the assertions follow.
    let mut given = vrps(&[&kept[..], &removed[..]].concat());
    let mut wanted = [vrps(&kept), added].concat();
    assert_eq!(
        apply_slurm(EXAMPLE.as_bytes(), &given).as_ref(),
        Ok(&wanted)
    );
    given.reverse();
    wanted[..kept.len()].reverse();
    assert_eq!(apply_slurm(EXAMPLE.as_bytes(), &given), Ok(wanted));
}

/// A VRP that is repeated stays repeated. No filter removes an assertion. A byte order mark is ignored.
#[test]
fn repeated_and_no_vrps() {
    let twice = vrps(&["10.0.0.0/8 AS1", "10.0.0.0/8 AS1"]);
    let nothing = with_items("", "");
    assert_eq!(apply_slurm(nothing.as_bytes(), &twice).as_ref(), Ok(&twice));
    assert_eq!(apply_slurm(nothing.as_bytes(), &[]), Ok(vec![]));
    let marked = format!("\u{feff}{nothing}");
    assert_eq!(apply_slurm(marked.as_bytes(), &twice).as_ref(), Ok(&twice));
    let all = with_items(
        "prefixFilters",
        r#"{"prefix": "0.0.0.0/0"}, {"prefix": "::/0"}"#,
    );
    assert_eq!(apply_slurm(all.as_bytes(), &twice), Ok(vec![]));
    let item = r#"{"asn": 1, "prefix": "10.0.0.0/8"}"#;
    let added = with_items("prefixAssertions", &format!("{item}, {item}"));
    let filtered = added.replace(r#""prefixFilters": ["#, r#""prefixFilters": [{"asn": 1}"#);
    assert_eq!(apply_slurm(filtered.as_bytes(), &twice), Ok(twice.clone()));
}

/// The shortest assertions still fit the first buffer: an assertion has at least 25 octets.
#[test]
fn many_short_assertions() {
    let items = vec![r#"{"asn":1,"prefix":"::/0"}"#; 5000].join(",");
    let found = apply_slurm(with_items("prefixAssertions", &items).as_bytes(), &[]).unwrap();
    assert_eq!(found, vrps(&["::/0 AS1"; 5000]));
}

#[test]
fn faults_of_files() {
    use SlurmFault::{Kind, Missing, Repeated, UnknownMember, UnknownMemberIn, Version};
    use SlurmMember::{LocallyAddedAssertions, SlurmVersion, ValidationOutputFilters};
    let valid = with_items("", "");
    let deep = format!("{}{}", "[".repeat(200), "]".repeat(200));
    let asked = [
        ("", "", SlurmFault::NotObject, None),
        ("{\"", "[\"", SlurmFault::NotObject, None),
        ("1", &deep, SlurmFault::NotObject, None),
        (r#"[]}}"#, r#"[]}, "x": 1}"#, UnknownMember, Some(4)),
        (
            r#"{"slurmVersion""#,
            r#"{"version": 1, "slurmVersion""#,
            UnknownMember,
            Some(1),
        ),
        ("1", "2", Version, None),
        ("1", "\"1\"", Kind(SlurmVersion), None),
        (r#""slurmVersion": 1, "#, "", Missing(SlurmVersion), None),
        ("1", r#"1, "slurmVersion": 1"#, Repeated(SlurmVersion), None),
        (
            r#""prefixFilters""#,
            r#""other": [], "prefixFilters""#,
            UnknownMemberIn(ValidationOutputFilters),
            Some(1),
        ),
        (
            r#""bgpsecAssertions""#,
            r#""aspaAssertions""#,
            UnknownMemberIn(LocallyAddedAssertions),
            Some(2),
        ),
        (
            r#""prefixAssertions": []"#,
            r#""prefixAssertions": {}"#,
            Kind(SlurmMember::PrefixAssertions),
            None,
        ),
        (
            r#", "bgpsecFilters": []"#,
            "",
            Missing(SlurmMember::BgpsecFilters),
            None,
        ),
    ];
    for (old, new, fault, item) in asked {
        let file = if old.is_empty() {
            String::new()
        } else {
            valid.replacen(old, new, 1)
        };
        let error = refused(&file);
        let found = (error.reason(), error.list(), error.item());
        assert_eq!(found, (Reason::BadSlurm(fault), None, item), "{file}");
    }
    let error = refused(&valid.replace("[]}}", "[]}, \"x\": 1}"));
    let text = "at member 4: SLURM file: unknown member";
    assert_eq!(error.to_string(), text);
    let debug = "ApplySlurmError { reason: BadSlurm(UnknownMember), item: 4 }";
    assert_eq!(format!("{error:?}"), debug);
    assert!(error.source().is_none());
    let debug = "ApplySlurmError { reason: BadSlurm(NotObject) }";
    assert_eq!(format!("{:?}", refused("")), debug);
    assert_eq!(refused("").to_string(), status_text(refused("").status()));
}

#[test]
fn faults_of_items() {
    use SlurmFault::{Kind, MaxLen, MaxLenFormat, Missing, NoCriterion, NotObject, Repeated};
    use SlurmList::{BgpsecAssertions, BgpsecFilters, PrefixAssertions, PrefixFilters};
    use SlurmMember::{Asn, Comment, MaxPrefixLength, Prefix, RouterPublicKey, Ski};
    let asked = [
        (PrefixFilters, "1", NotObject),
        (
            PrefixFilters,
            r#"{"asn": 1, "name": 1}"#,
            SlurmFault::UnknownMember,
        ),
        (
            PrefixFilters,
            r#"{"prefix": "10.0.0.1/8"}"#,
            SlurmFault::Prefix,
        ),
        (PrefixFilters, r#"{"asn": 4294967296}"#, SlurmFault::Asn),
        (PrefixFilters, r#"{"comment": "x"}"#, NoCriterion),
        (PrefixFilters, r#"{"asn": "AS1"}"#, Kind(Asn)),
        (PrefixFilters, r#"{"asn": 1, "asn": 1}"#, Repeated(Asn)),
        (BgpsecFilters, r#"{"comment": "x"}"#, NoCriterion),
        (BgpsecFilters, r#"{"SKI": 1}"#, Kind(Ski)),
        (
            BgpsecFilters,
            r#"{"prefix": "::/0"}"#,
            SlurmFault::UnknownMember,
        ),
        (PrefixAssertions, r#"{"asn": 1}"#, Missing(Prefix)),
        (PrefixAssertions, r#"{"prefix": "::/0"}"#, Missing(Asn)),
        (
            PrefixAssertions,
            r#"{"asn": 1, "prefix": "10.0.0.0/8", "maxPrefixLength": 7}"#,
            MaxLen,
        ),
        (
            PrefixAssertions,
            r#"{"asn": 1, "prefix": "10.0.0.0/8", "maxPrefixLength": 256}"#,
            MaxLenFormat,
        ),
        (
            PrefixAssertions,
            r#"{"asn": 1, "prefix": "10.0.0.0/8", "maxPrefixLength": "8"}"#,
            Kind(MaxPrefixLength),
        ),
        (
            PrefixAssertions,
            r#"{"asn": 1, "prefix": "10.0.0.0/8", "comment": 1}"#,
            Kind(Comment),
        ),
        (
            BgpsecAssertions,
            r#"{"asn": 1, "SKI": "x"}"#,
            Missing(RouterPublicKey),
        ),
        (
            BgpsecAssertions,
            r#"{"asn": 1, "routerPublicKey": "x"}"#,
            Missing(Ski),
        ),
    ];
    for (list, item, fault) in asked {
        let (name, valid) = match list {
            PrefixFilters => ("prefixFilters", r#"{"asn": 1}"#),
            BgpsecFilters => ("bgpsecFilters", r#"{"asn": 1}"#),
            PrefixAssertions => ("prefixAssertions", r#"{"asn": 1, "prefix": "::/0"}"#),
            BgpsecAssertions => (
                "bgpsecAssertions",
                r#"{"asn": 1, "SKI": "x", "routerPublicKey": "x"}"#,
            ),
        };
        let error = refused(&with_items(name, &format!("{valid}, {item}, {item}")));
        let found = (error.reason(), error.list(), error.item());
        let wanted = (Reason::BadSlurmItem(list, fault), Some(list), Some(2));
        assert_eq!(found, wanted, "{item}");
        let text = format!("at item 2: item of {name}: ");
        assert!(error.to_string().starts_with(&text), "{error}");
        assert!(error.source().is_none());
    }
}
