//! Tests tables: one table on several threads, changes, copies of a VRP, and errors.
use pigyelund::{
    read_unexpired_vrps, read_vrps, InvalidReason, Prefix, Reason, Route, Table, TableError,
    Validity, Vrp, VrpFault,
};
use std::collections::HashSet;
use std::error::Error;
use std::net::Ipv4Addr;
use std::thread;

const THREADS: usize = 8;

fn net(at: usize, len: u8) -> Prefix {
    Prefix::new(Ipv4Addr::from((at as u32) << 12), len).unwrap()
}

fn vrp(text: &str) -> Vrp {
    text.parse().unwrap()
}

fn route(text: &str) -> Route {
    text.parse().unwrap()
}

/// Threads query one table at once, while each makes a next table from it.
#[test]
fn a_table_is_asked_on_threads() {
    let vrps: Vec<Vrp> = (0..4000)
        .map(|at| Vrp::new(net(at, 20), 24, 7).unwrap())
        .collect();
    let table = Table::new(&vrps).unwrap();
    thread::scope(|scope| {
        for turn in 0..THREADS {
            let (table, vrps) = (&table, &vrps);
            scope.spawn(move || {
                for at in (turn..vrps.len()).step_by(3) {
                    let found = table.validate(&Route::new(net(at, 24), 7));
                    assert_eq!(found, Validity::Valid);
                }
                let next = table.with_changes(&[], &vrps[turn..turn + 1]).unwrap();
                assert_eq!(next.len(), vrps.len() - 1);
                let gone = Route::new(net(turn, 24), 7);
                assert_eq!(next.validate(&gone), Validity::NotFound);
                assert_eq!(table.revalidate(&next, &[gone]), [0]);
            });
        }
    });
    assert_eq!(table.len(), vrps.len());
}

/// The changes between two tables turn the one into the other.
#[test]
fn changes_are_applied() {
    let of = |numbers: std::ops::Range<u32>, lengths: u32| -> HashSet<Vrp> {
        let vrp = |asn: u32| Vrp::new(net(0xa000, 8), 8 + (asn % lengths) as u8, asn).unwrap();
        numbers.map(vrp).collect()
    };
    let (old, new) = (of(1..9, 3), of(3..12, 2));
    let table: Table = old.iter().copied().collect();
    let (announced, withdrawn) = (Vec::from_iter(&new - &old), Vec::from_iter(&old - &new));
    let next = table.with_changes(&announced, &withdrawn).unwrap();
    let wanted: Table = new.into_iter().collect();
    assert_eq!(next.vrps(), wanted.vrps());
    let changes = table.changes(&wanted).unwrap();
    assert_eq!(
        HashSet::<Vrp>::from_iter(changes.announced.clone()),
        HashSet::from_iter(announced)
    );
    assert_eq!(
        HashSet::<Vrp>::from_iter(changes.withdrawn.clone()),
        HashSet::from_iter(withdrawn)
    );
    let again = table.with_changes(&changes.announced, &changes.withdrawn);
    assert_eq!(again.unwrap().vrps(), wanted.vrps());
    let routes = [9, 9, 10].map(|len| Route::new(net(0xa000, len), 3));
    assert_eq!(HashSet::from(routes).len(), 2);
    let covering = routes.map(|route| HashSet::<_>::from_iter(wanted.covering(&route).unwrap()));
    assert!(covering[0] == covering[1] && covering[0] != covering[2]);
}

/// Changes have each VRP once, also if a table has copies of it.
#[test]
fn changes_have_no_copies() {
    let [one, two, three] = ["10.0.0.0/8 AS1", "10.0.0.0/8 AS2", "::/0-7 AS1"].map(vrp);
    let old = Table::new(&[one, one, two, two]).unwrap();
    let new = Table::new(&[two, three, three]).unwrap();
    let changes = old.changes(&new).unwrap();
    assert_eq!(
        (&changes.announced[..], &changes.withdrawn[..]),
        (&[three][..], &[one][..])
    );
    let next = old
        .with_changes(&changes.announced, &changes.withdrawn)
        .unwrap();
    assert_eq!(next.vrps(), Ok(vec![two, two, three]));
    let none = new.changes(&new).unwrap();
    assert!(none.announced.is_empty() && none.withdrawn.is_empty());
    assert_eq!(none.clone(), none);
}

/// The order is that of `pigy_table_changes` in `pigyelund.h`, also for VRPs that come in another order.
#[test]
fn changes_have_an_order() {
    let wanted = [
        "10.0.0.0/9 AS1",
        "10.128.0.0/9 AS1",
        "10.0.0.0/8-16 AS1",
        "10.0.0.0/8-16 AS2",
        "10.0.0.0/8-8 AS1",
        "11.0.0.0/8 AS0",
        "0.0.0.0/0 AS1",
        "::/128 AS1",
        "::/0 AS1",
    ]
    .map(vrp);
    let none = Table::new(&[]).unwrap();
    let mut given = wanted;
    given.reverse();
    for _ in 0..given.len() {
        given.rotate_left(1);
        let table = Table::new(&given).unwrap();
        let changes = none.changes(&table).unwrap();
        assert_eq!(
            (&changes.announced[..], changes.withdrawn),
            (&wanted[..], vec![])
        );
        let changes = table.changes(&none).unwrap();
        assert_eq!(
            (changes.announced, &changes.withdrawn[..]),
            (vec![], &wanted[..])
        );
    }
}

/// A VRP that is passed twice is returned twice. A single withdrawal removes both copies.
#[test]
fn a_table_has_copies() {
    let [twice, other] = ["10.0.0.0/8 AS1", "10.0.0.0/8 AS2"].map(vrp);
    let table = Table::new(&[twice, other, twice]).unwrap();
    let asked = route("10.0.0.0/8 AS1");
    assert_eq!(format!("{table:?}"), "Table { len: 3 }");
    assert!(!table.is_empty() && Table::new(&[]).unwrap().is_empty());
    let covering = table.covering(&asked).unwrap();
    let vrps: Vec<Vrp> = covering.iter().copied().map(Vrp::from).collect();
    assert_eq!(vrps, [twice, twice, other]);
    assert_eq!(covering[2].to_string(), "10.0.0.0/8-8 AS2");
    let text = "Covering { vrp: 10.0.0.0/8-8 AS2, other_as: true, too_long: false }";
    assert_eq!(format!("{:?}", covering[2]), text);
    let next = |announced: &[Vrp], withdrawn: &[Vrp]| -> Result<Vec<Vrp>, TableError> {
        Ok(table
            .with_changes(announced, withdrawn)?
            .into_iter()
            .collect())
    };
    assert_eq!(next(&[], &[twice]), Ok(vec![other]));
    assert_eq!(next(&[twice], &[twice]), Ok(vec![other, twice]));
    let refused = next(&[], &[twice, twice]).unwrap_err();
    let found = (refused.reason(), refused.index(), refused.line());
    assert_eq!(found, (Reason::UnknownWithdrawal, Some(1), None));
    let refused = next(&[twice], &[]).unwrap_err();
    assert_eq!(
        (refused.reason(), refused.index()),
        (Reason::DuplicateAnnouncement, Some(0))
    );
    assert_eq!(
        refused.to_string(),
        "at index 0: duplicate announcement of a VRP"
    );
    let debug = "TableError { reason: DuplicateAnnouncement, index: 0 }";
    assert_eq!(format!("{refused:?}"), debug);
    assert!(refused.source().is_none());
    assert_eq!(table.vrps(), Ok(vec![other, twice, twice]));
    assert_eq!(
        (&table).into_iter().collect::<Vec<_>>(),
        [other, twice, twice]
    );
    let mut longer: Table = table.iter().skip(1).collect();
    longer.extend([twice, other]);
    assert!(longer.iter().eq([other, twice, twice, twice]));
}

#[test]
fn validities_have_reasons() {
    let table = Table::new(&[
        vrp("10.0.0.0/8-16 AS64496"),
        vrp("2001:db8::/32-48 AS64496"),
        vrp("12.0.0.0/8 AS0"),
    ])
    .unwrap();
    let wanted = [
        ("10.0.0.0/16 AS64496", Validity::Valid, "valid"),
        (
            "10.0.0.0/24 AS64496",
            Validity::Invalid(InvalidReason::Length),
            "invalid-length",
        ),
        (
            "10.0.0.0/16 AS64497",
            Validity::Invalid(InvalidReason::As),
            "invalid-as",
        ),
        (
            "12.0.0.0/8 AS0",
            Validity::Invalid(InvalidReason::As),
            "invalid-as",
        ),
        (
            "2001:db8::/49 AS64496",
            Validity::Invalid(InvalidReason::Length),
            "invalid-length",
        ),
        ("2001:db8::/31 AS64496", Validity::NotFound, "not-found"),
    ];
    let routes: Vec<Route> = wanted.iter().map(|it| route(it.0)).collect();
    let found = table.validate_routes(&routes);
    for ((route, found), (_, validity, text)) in routes.iter().zip(found).zip(wanted) {
        assert_eq!(
            (found, table.validate(route)),
            (validity, validity),
            "{route}"
        );
        assert_eq!(found.to_string(), text);
    }
    assert!(table.validate_routes(&[]).is_empty() && table.revalidate(&table, &[]).is_empty());
    let none = Table::new(&[]).unwrap();
    assert_eq!(table.revalidate(&none, &routes), [0, 1, 2, 3, 4]);
}

#[test]
fn files_of_vrps() {
    let file = b"ASN,IP Prefix,Max Length\nAS64496,10.0.0.0/8,16\nAS64496,10.0.0.0/8,7\n";
    let refused = read_vrps(file).unwrap_err();
    assert_eq!(refused.reason(), Reason::BadLine(VrpFault::MaxLen));
    assert_eq!((refused.line(), refused.index()), (Some(3), None));
    let text = refused.to_string();
    assert!(
        text.starts_with("at line 3: ") && refused.source().is_none(),
        "{text}"
    );
    let item = br#"{"roas": [{"asn": 1, "prefix": "10.0.0.0/8"}]}"#;
    let refused = Table::read(item).unwrap_err();
    assert_eq!(
        refused.reason(),
        Reason::BadItem(VrpFault::MaxLengthMissing)
    );
    assert!(refused.to_string().starts_with("at item 1: ") && refused.line() == Some(1));
    let refused = read_vrps(b"").unwrap_err();
    assert_eq!((refused.line(), refused.index()), (None, None));
    let text = refused.to_string();
    assert_eq!(text, pigyelund::status_text(refused.status()));
    assert_eq!(
        read_vrps(&file[..47]),
        Ok(vec![vrp("10.0.0.0/8-16 AS64496")])
    );
}

#[test]
fn files_with_expiries() {
    let file = b"ASN,IP Prefix,Max Length,Expires\nAS1,10.0.0.0/8,8,100\nAS2,10.0.0.0/8,8,\n";
    for (time, asns, expired) in [(100, &[1, 2][..], 0), (101, &[2], 1), (u64::MAX, &[2], 1)] {
        let found = read_unexpired_vrps(file, time).unwrap();
        let kept: Vec<u32> = found.vrps.iter().map(|it| it.asn().into()).collect();
        assert_eq!((&kept[..], found.expired), (asns, expired), "{time}");
        assert_eq!(Table::read_unexpired(file, time).unwrap().len(), asns.len());
    }
    let found = read_unexpired_vrps(&file[..52], 101).unwrap();
    assert!(found.vrps.is_empty() && found.expired == 1);
    let file = b"ASN,IP Prefix,Max Length,Expires\nAS1,10.0.0.0/8,8,soon\n";
    let refused = read_unexpired_vrps(file, 0).unwrap_err();
    assert_eq!(refused.reason(), Reason::BadLine(VrpFault::Expiry));
    assert_eq!(refused.line(), Some(2));
    assert_eq!(read_vrps(file).unwrap().len(), 1);
    let item = br#"{"roas": [{"asn": 1, "prefix": "10.0.0.0/8", "maxLength": 8, "expires": "1"}]}"#;
    let refused = Table::read_unexpired(item, 0).unwrap_err();
    assert_eq!(refused.reason(), Reason::BadItem(VrpFault::ExpiresKind));
}
