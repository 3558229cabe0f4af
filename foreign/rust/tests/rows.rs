//! Makes the golden tests of `rows.txt`, on one thread and on eight at once. Checks each named number and each status
//! text.
//!
//! A golden test is a line with a call, its arguments, and the stored result. The tests in C and Python read the same
//! file. The calls of C are made with buffers of each length up to the needed one, and the calls of the crate once.
use pigyelund::{
    answer, apply_slurm, read_routes, read_unexpired_vrps, read_vrps, status_text, validate_routes,
    version, Asn, Certificate, Encoding, Extensions, Family, InvalidReason, Kind, Mode, Prefix,
    Reason, ResourceError, Resources, Route, Table, TableError, Validity, ValueError, Vrp,
};
use pigyelund_sys as sys;
use pigyelund_sys::{PIGY_KIND, PIGY_OK, PIGY_SECOND, PIGY_TOO_SMALL};
use std::collections::BTreeMap;
use std::net::IpAddr;
use std::ptr::{null, null_mut};
use std::thread;

const THREADS: usize = 8;
/// What buffers and lengths have before a call.
const UNTOUCHED: u8 = 0xa5;

fn octets(word: &str) -> Vec<u8> {
    let digits = if word == "-" { "" } else { word };
    (0..digits.len() / 2)
        .map(|at| u8::from_str_radix(&digits[2 * at..2 * at + 2], 16).unwrap())
        .collect()
}

fn encoding_of(number: u32) -> Option<Encoding> {
    [Encoding::Lenient, Encoding::Strict]
        .into_iter()
        .find(|it| *it as u32 == number)
}

fn mode_of(number: u32) -> Option<Mode> {
    [Mode::Refuse, Mode::Trim]
        .into_iter()
        .find(|it| *it as u32 == number)
}

fn family_of(number: u32) -> Option<Family> {
    [Family::V4, Family::V6]
        .into_iter()
        .find(|it| *it as u32 == number)
}

fn kind_of(number: u32) -> Option<Kind> {
    [Kind::Asn, Kind::V4, Kind::V6]
        .into_iter()
        .find(|it| *it as u32 == number)
}

/// A set or a certificate of a golden test: its AS identifiers and its IP address blocks.
#[derive(Clone, Copy)]
struct Octets<'a> {
    asn: &'a [u8],
    ip: &'a [u8],
}

impl<'a> Octets<'a> {
    fn c(&self) -> sys::pigy_set {
        sys::pigy_set {
            as_: self.asn.as_ptr(),
            as_len: self.asn.len(),
            ip: self.ip.as_ptr(),
            ip_len: self.ip.len(),
        }
    }

    /// Returns the extensions of a set: one without octets is absent.
    fn of_set(&self) -> Extensions<'a> {
        Extensions {
            asn: (!self.asn.is_empty()).then_some(self.asn),
            ip: (!self.ip.is_empty()).then_some(self.ip),
        }
    }

    /// Returns the extensions that `present` names.
    fn of_certificate(&self, present: u32) -> Extensions<'a> {
        Extensions {
            asn: (present & sys::PIGY_HAS_AS != 0).then_some(self.asn),
            ip: (present & sys::PIGY_HAS_IP != 0).then_some(self.ip),
        }
    }
}

fn certificate(word: &str) -> sys::pigy_certificate {
    let numbers: Vec<&str> = word.split(':').collect();
    let ranges: Vec<usize> = numbers[..4].iter().map(|n| n.parse().unwrap()).collect();
    sys::pigy_certificate {
        as_start: ranges[0],
        as_len: ranges[1],
        ip_start: ranges[2],
        ip_len: ranges[3],
        present: numbers[4].parse().unwrap(),
        mode: numbers[5].parse().unwrap(),
    }
}

/// Returns the certificate at a place of `run`, or None if the place is outside or a number is unknown.
fn certificate_at<'a>(run: &'a [u8], place: &sys::pigy_certificate) -> Option<Certificate<'a>> {
    let asn = run.get(place.as_start..place.as_start.checked_add(place.as_len)?)?;
    let ip = run.get(place.ip_start..place.ip_start.checked_add(place.ip_len)?)?;
    if place.present > sys::PIGY_HAS_BOTH {
        return None;
    }
    Some(Certificate {
        extensions: Octets { asn, ip }.of_certificate(place.present),
        mode: mode_of(place.mode)?,
    })
}

fn octets_of(address: IpAddr) -> Vec<u8> {
    match address {
        IpAddr::V4(v4) => v4.octets().to_vec(),
        IpAddr::V6(v6) => v6.octets().to_vec(),
    }
}

/// Returns 16 octets: those of an address, and 0 after an IPv4 address.
fn padded(address: IpAddr) -> Vec<u8> {
    let mut octets = octets_of(address);
    octets.resize(16, 0);
    octets
}

fn asn(octets: &[u8]) -> u32 {
    u32::from_be_bytes(octets[16..20].try_into().unwrap())
}

/// Returns a VRP of the library in the form of a golden test.
fn c_vrp_octets(it: &sys::pigy_vrp) -> Vec<u8> {
    let number = it.asn.to_be_bytes();
    let last = [it.family, it.len, it.max_len];
    [&it.address[..], &number[..], &last[..]].concat()
}

fn c_vrp(octets: &[u8]) -> sys::pigy_vrp {
    sys::pigy_vrp {
        address: octets[..16].try_into().unwrap(),
        asn: asn(octets),
        family: octets[20],
        len: octets[21],
        max_len: octets[22],
    }
}

fn c_route(octets: &[u8]) -> sys::pigy_route {
    sys::pigy_route {
        address: octets[..16].try_into().unwrap(),
        asn: asn(octets),
        family: octets[20],
        len: octets[21],
    }
}

/// Returns the prefix of an address, a family and a length, or None if they are none.
fn prefix(address: &[u8], family: u8, len: u8) -> Option<Prefix> {
    let address = match family_of(family.into())? {
        Family::V4 => IpAddr::from(<[u8; 4]>::try_from(&address[..4]).unwrap()),
        Family::V6 => IpAddr::from(<[u8; 16]>::try_from(&address[..16]).unwrap()),
    };
    Prefix::new(address, len).ok()
}

fn vrp(octets: &[u8]) -> Option<Vrp> {
    Vrp::new(
        prefix(octets, octets[20], octets[21])?,
        octets[22],
        asn(octets),
    )
    .ok()
}

fn route(octets: &[u8]) -> Option<Route> {
    Some(Route::new(
        prefix(octets, octets[20], octets[21])?,
        asn(octets),
    ))
}

/// Returns all values, or the index of the first octets that are none.
fn all<T>(octets: &[u8], len: usize, value: impl Fn(&[u8]) -> Option<T>) -> Result<Vec<T>, usize> {
    let each = octets.chunks(len).enumerate();
    each.map(|(at, it)| value(it).ok_or(at)).collect()
}

/// Returns the octets that `rows.txt` has for a VRP.
fn vrp_octets(vrp: &Vrp) -> Vec<u8> {
    let prefix = vrp.prefix();
    let mut octets = padded(prefix.addr());
    octets.extend(vrp.asn().number().to_be_bytes());
    octets.extend([prefix.family() as u8, prefix.prefix_len(), vrp.max_len()]);
    octets
}

/// Returns the octets that `rows.txt` has for a route of C.
fn c_route_octets(it: &sys::pigy_route) -> Vec<u8> {
    [&it.address[..], &it.asn.to_be_bytes(), &[it.family, it.len]].concat()
}

/// Returns the octets that `rows.txt` has for a route.
fn route_octets(route: &Route) -> Vec<u8> {
    let prefix = route.prefix();
    let last = [prefix.family() as u8, prefix.prefix_len()];
    let number = route.asn().number().to_be_bytes();
    [padded(prefix.addr()), number.to_vec(), last.to_vec()].concat()
}

/// Returns the status of the error of a text.
fn status_of(error: ValueError) -> u32 {
    match error {
        ValueError::VrpText { fault, .. } => sys::PIGY_BAD_LINE + fault as u32,
        ValueError::RouteText { fault, .. } => sys::PIGY_BAD_ROUTE + fault as u32,
        other => panic!("{other}"),
    }
}

/// Returns the octets that `rows.txt` has for all VRPs of a table.
fn table_octets(table: &Table) -> Vec<u8> {
    let all = table.vrps().unwrap();
    assert_eq!(all.len(), table.len());
    all.iter().flat_map(vrp_octets).collect()
}

/// Returns buffers for a call, with lengths that the call has to replace.
fn buffers(asn: &mut [u8], ip: &mut [u8]) -> sys::pigy_buffers {
    sys::pigy_buffers {
        as_: asn.as_mut_ptr(),
        as_capacity: asn.len(),
        as_len: usize::MAX,
        ip: ip.as_mut_ptr(),
        ip_capacity: ip.len(),
        ip_len: usize::MAX,
    }
}

/// Returns the answer of a call with a status: 1, 0, or the status of an error, with which the answer is 0.
fn answered(call: impl FnOnce(&mut u8) -> u32) -> (u32, usize) {
    let mut found = UNTOUCHED;
    let status = call(&mut found);
    (status, found.into())
}

/// A golden test: the call, its arguments, and the result that is expected.
struct Row<'a> {
    text: &'a str,
    call: &'a str,
    numbers: Vec<u32>,
    runs: Vec<Vec<u8>>,
    certificates: Vec<sys::pigy_certificate>,
    status: u32,
    expected: (Vec<u8>, Vec<u8>),
    last: Option<usize>,
}

impl Row<'_> {
    fn new(text: &str) -> Row<'_> {
        let words: Vec<&str> = text.split(' ').collect();
        let is_path = words[0] == "path" && words[5] != "-";
        Row {
            text,
            call: words[0],
            numbers: words[1].split(',').flat_map(str::parse).collect(),
            runs: words[2..if is_path { 5 } else { 6 }]
                .iter()
                .map(|word| octets(word))
                .collect(),
            certificates: if is_path {
                words[5].split(';').map(certificate).collect()
            } else {
                Vec::new()
            },
            status: words[6].parse().unwrap(),
            expected: (octets(words[7]), octets(words[8])),
            last: words[9].parse().ok(),
        }
    }

    fn first(&self) -> Octets<'_> {
        Octets {
            asn: &self.runs[0],
            ip: &self.runs[1],
        }
    }

    fn second(&self) -> Octets<'_> {
        Octets {
            asn: &self.runs[2],
            ip: &self.runs[3],
        }
    }

    fn is_overclaim(&self) -> bool {
        PIGY_KIND(self.status) == sys::PIGY_OVERCLAIM
    }

    /// Makes a call that writes a set, with buffers of each length up to the needed one.
    fn ask_set(&self, call: impl Fn(&mut sys::pigy_buffers) -> u32) {
        let (as_len, ip_len) = (self.expected.0.len(), self.expected.1.len());
        for capacity in 0..=as_len.max(ip_len) {
            let (mut asn, mut ip) = (vec![UNTOUCHED; capacity], vec![UNTOUCHED; capacity]);
            let mut out = buffers(&mut asn, &mut ip);
            let status = call(&mut out);
            let fits = as_len <= capacity && ip_len <= capacity;
            let wanted = if fits { self.status } else { PIGY_TOO_SMALL };
            let found = (status, out.as_len, out.ip_len);
            assert_eq!(found, (wanted, as_len, ip_len), "{}", self.text);
            let (mut wanted_as, mut wanted_ip) =
                (vec![UNTOUCHED; capacity], vec![UNTOUCHED; capacity]);
            if fits {
                wanted_as[..as_len].copy_from_slice(&self.expected.0);
                wanted_ip[..ip_len].copy_from_slice(&self.expected.1);
            }
            assert_eq!((asn, ip), (wanted_as, wanted_ip), "{}", self.text);
        }
    }

    /// Makes a call that verifies. Overclaimed resources are in `excess`, and any other result in `out`. The other of
    /// the two stays as it is, and has the lengths 0.
    fn ask_verified(&self, call: impl Fn(&mut sys::pigy_buffers, &mut sys::pigy_buffers) -> u32) {
        self.ask_set(|main| {
            let (mut asn, mut ip) = ([UNTOUCHED; 300], [UNTOUCHED; 300]);
            let mut other = buffers(&mut asn, &mut ip);
            let status = if self.is_overclaim() {
                call(&mut other, main)
            } else {
                call(main, &mut other)
            };
            assert_eq!((other.as_len, other.ip_len), (0, 0), "{}", self.text);
            assert!(asn == [UNTOUCHED; 300] && ip == [UNTOUCHED; 300]);
            status
        });
    }

    /// Makes a call that writes elements, with buffers of each length up to the needed one and with one more. Each
    /// element has `width` octets of the expected ones, which `octets` returns.
    fn ask_items<T: Copy + Default>(
        &self,
        width: usize,
        octets: impl Fn(&T) -> Vec<u8>,
        call: impl Fn(*mut T, usize, &mut usize) -> u32,
    ) {
        let len = self.expected.0.len() / width;
        for capacity in 0..=len + 1 {
            let mut out = vec![T::default(); capacity];
            let mut found = usize::MAX;
            let status = call(out.as_mut_ptr(), capacity, &mut found);
            let fits = len <= capacity;
            let wanted = if fits { self.status } else { PIGY_TOO_SMALL };
            assert_eq!((status, found), (wanted, len), "{}", self.text);
            let (written, rest) = out.split_at(if fits { len } else { 0 });
            let written: Vec<u8> = written.iter().flat_map(&octets).collect();
            assert!(!fits || written == self.expected.0, "{}", self.text);
            let untouched = octets(&T::default());
            assert!(rest.iter().all(|it| octets(it) == untouched));
        }
    }

    fn ask_octets(&self, call: impl Fn(*mut u8, usize, &mut usize) -> u32) {
        self.ask_items(1, |octet: &u8| vec![*octet], call);
    }

    /// Compares a set, or the status of an error and the overclaimed resources, with the golden test.
    fn expect(&self, found: Result<Resources, ResourceError>) {
        let (status, set) = match found {
            Ok(set) => (PIGY_OK, Some(set)),
            Err(error) => (error.status(), error.excess().cloned()),
        };
        assert_eq!(status, self.status, "{}", self.text);
        let der = set.unwrap_or_default().der().unwrap();
        assert_eq!((der.asn, der.ip), self.expected, "{}", self.text);
    }

    /// Compares octets, or the status of an error, with the golden test.
    fn expect_octets(&self, found: Result<Vec<u8>, u32>) {
        let (status, octets) = match found {
            Ok(octets) => (PIGY_OK, octets),
            Err(status) => (status, Vec::new()),
        };
        let found = (status, &octets);
        assert_eq!(found, (self.status, &self.expected.0), "{}", self.text);
    }

    /// Compares an answer, or the status of an error, with the golden test.
    fn expect_answer(&self, found: (u32, usize)) {
        assert_eq!(
            found,
            (self.status, self.last.unwrap_or(0)),
            "{}",
            self.text
        );
    }

    /// Reads a set by the encoding of the golden test. Returns None if this encoding is unknown.
    fn read(&self, octets: Octets<'_>) -> Option<Result<Resources, ResourceError>> {
        let encoding = encoding_of(self.numbers[0])?;
        Some(Resources::read(octets.of_set(), encoding))
    }

    fn ask_verify(&self) {
        let (issuer, cert) = (self.first(), self.second());
        let (encoding, present, mode) = (self.numbers[0], self.numbers[1], self.numbers[2]);
        self.ask_verified(|out, excess| unsafe {
            sys::pigy_verify(issuer.c(), cert.c(), present, encoding, mode, out, excess)
        });
        let Some(issuer) = self.read(issuer) else {
            return;
        };
        if present > sys::PIGY_HAS_BOTH {
            return;
        }
        if let (Some(encoding), Some(mode)) = (encoding_of(encoding), mode_of(mode)) {
            let extensions = cert.of_certificate(present);
            self.expect(issuer.and_then(|it| it.verify(extensions, encoding, mode)));
        }
    }

    fn ask_path(&self) {
        let (anchor, run, certificates) = (self.first(), &self.runs[2], &self.certificates);
        self.ask_verified(|out, excess| {
            let mut verified = usize::MAX;
            let status = unsafe {
                sys::pigy_verify_path(
                    anchor.c(),
                    run.as_ptr(),
                    run.len(),
                    certificates.as_ptr(),
                    certificates.len(),
                    self.numbers[0],
                    out,
                    excess,
                    &mut verified,
                )
            };
            assert_eq!(Some(verified), self.last, "{}", self.text);
            status
        });
        let path: Option<Vec<_>> = certificates
            .iter()
            .map(|at| certificate_at(run, at))
            .collect();
        let (Some(anchor), Some(path)) = (self.read(anchor), path) else {
            return;
        };
        let encoding = encoding_of(self.numbers[0]).unwrap();
        let found = anchor.and_then(|it| it.verify_path(&path, encoding));
        let verified = match &found {
            Ok(_) => path.len(),
            Err(error) => error.verified().unwrap_or(0),
        };
        assert_eq!(Some(verified), self.last, "{}", self.text);
        self.expect(found);
    }

    fn ask_cover(&self) {
        let (ip, encoding, number) = (&self.runs[0], self.numbers[0], self.numbers[1]);
        let width = if number == sys::PIGY_IPV4 { 4 } else { 16 };
        let octets = |it: &sys::pigy_prefix| {
            assert!(it.len == 0 || it.family == number as u8);
            assert!(it.address[width..].iter().all(|octet| *octet == 0));
            [&it.address[..width], &[it.len]].concat()
        };
        self.ask_items(width + 1, octets, |out, capacity, len| unsafe {
            sys::pigy_prefixes(ip.as_ptr(), ip.len(), encoding, number, out, capacity, len)
        });
        let (Some(set), Some(family)) = (self.read(Octets { asn: &[], ip }), family_of(number))
        else {
            return;
        };
        let found = set.and_then(|set| set.prefixes(family)).map(|prefixes| {
            let octets = |it: &Prefix| [octets_of(it.addr()), vec![it.prefix_len()]].concat();
            prefixes.iter().flat_map(octets).collect()
        });
        self.expect_octets(found.map_err(|error| error.status()));
    }

    fn ask_as_ranges(&self) {
        let (asn, encoding) = (&self.runs[0], self.numbers[0]);
        let octets = |it: &sys::pigy_as_range| [it.min, it.max].map(u32::to_be_bytes).concat();
        self.ask_items(8, octets, |out, capacity, len| unsafe {
            sys::pigy_as_ranges(asn.as_ptr(), asn.len(), encoding, out, capacity, len)
        });
        let Some(set) = self.read(Octets { asn, ip: &[] }) else {
            return;
        };
        let found = set.and_then(|set| set.as_ranges()).map(|ranges| {
            let ends = ranges.iter().flat_map(|it| [*it.start(), *it.end()]);
            ends.flat_map(|it| it.number().to_be_bytes()).collect()
        });
        self.expect_octets(found.map_err(|error| error.status()));
    }

    fn ask_ip_ranges(&self) {
        let (ip, encoding, number) = (&self.runs[0], self.numbers[0], self.numbers[1]);
        let octets = |it: &sys::pigy_ip_range| [it.min, it.max].concat();
        self.ask_items(32, octets, |out, capacity, len| unsafe {
            sys::pigy_ip_ranges(ip.as_ptr(), ip.len(), encoding, number, out, capacity, len)
        });
        let (Some(set), Some(family)) = (self.read(Octets { asn: &[], ip }), family_of(number))
        else {
            return;
        };
        let found = set.and_then(|set| set.ip_ranges(family)).map(|ranges| {
            let ends = ranges.iter().flat_map(|it| [*it.start(), *it.end()]);
            ends.flat_map(padded).collect()
        });
        self.expect_octets(found.map_err(|error| error.status()));
    }

    /// Reads both sets of a golden test. The status of the second one says that it is the second.
    fn two_sets(&self) -> Option<Result<(Resources, Resources), u32>> {
        let first = self.read(self.first())?.map_err(|error| error.status());
        let second = || self.read(self.second()).unwrap();
        let second = || second().map_err(|error| error.status() + PIGY_SECOND);
        Some(first.and_then(|first| Ok((first, second()?))))
    }

    fn ask_operation(
        &self,
        c: Option<
            unsafe extern "C" fn(sys::pigy_set, sys::pigy_set, u32, *mut sys::pigy_buffers) -> u32,
        >,
        call: fn(&Resources, &Resources) -> Result<Resources, ResourceError>,
        operator: fn(Resources, &Resources) -> Resources,
    ) {
        let (a, b) = (self.first().c(), self.second().c());
        if let Some(c) = c {
            self.ask_set(|out| unsafe { c(a, b, self.numbers[0], out) });
        }
        match self.two_sets() {
            Some(Ok((a, b))) => {
                let found = call(&a, &b).unwrap();
                assert_eq!(operator(a, &b), found);
                self.expect(Ok(found));
            }
            Some(Err(status)) => assert_eq!(status, self.status, "{}", self.text),
            None => {}
        }
    }

    fn ask_comparison(
        &self,
        c: unsafe extern "C" fn(sys::pigy_set, sys::pigy_set, u32, *mut u8) -> u32,
        call: fn(&Resources, &Resources) -> bool,
    ) {
        let (a, b) = (self.first().c(), self.second().c());
        self.expect_answer(answered(|found| unsafe { c(a, b, self.numbers[0], found) }));
        match self.two_sets() {
            Some(Ok((a, b))) => self.expect_answer((PIGY_OK, call(&a, &b).into())),
            Some(Err(status)) => assert_eq!(status, self.status, "{}", self.text),
            None => {}
        }
    }

    /// Asks a set whether it has an AS number.
    fn ask_contains_asn(&self) {
        if let Some(set) = self.read(self.first()) {
            match set {
                Ok(set) => {
                    let found = set.contains(Asn::new(self.numbers[1]));
                    self.expect_answer((PIGY_OK, found.into()));
                }
                Err(error) => assert_eq!(error.status(), self.status, "{}", self.text),
            }
        }
    }

    /// Asks a set whether it has a prefix, by the call of C and by that of the crate.
    fn ask_contains_prefix(&self) {
        let octets = &self.runs[2];
        let wanted = sys::pigy_prefix {
            address: octets[..16].try_into().unwrap(),
            family: octets[16],
            len: octets[17],
        };
        let mut handle = null_mut();
        let (set, encoding) = (self.first().c(), self.numbers[0]);
        let status = unsafe { sys::pigy_resources_read(set, encoding, &mut handle) };
        if status != PIGY_OK {
            assert!(handle.is_null());
            return assert_eq!(status, self.status, "{}", self.text);
        }
        self.expect_answer(answered(|found| unsafe {
            sys::pigy_resources_contains_prefix(handle, &wanted, found)
        }));
        unsafe { sys::pigy_resources_free(handle) };
        let set = self.read(self.first()).unwrap().unwrap();
        match prefix(octets, wanted.family, wanted.len) {
            Some(prefix) => self.expect_answer((PIGY_OK, set.contains(prefix).into())),
            None => assert_ne!(self.status, PIGY_OK, "{}", self.text),
        }
    }

    /// Writes one kind of resources of a set as text, and reads the text as the same resources.
    fn ask_print(&self) {
        let (Some(set), Some(kind)) = (self.read(self.first()), kind_of(self.numbers[1])) else {
            return;
        };
        let text = set.and_then(|set| set.text(kind));
        if let Ok(text) = &text {
            let again = Resources::from_text(text, kind).unwrap();
            assert_eq!(text.parse(), Ok(again.clone()), "{}", self.text);
            assert_eq!(
                (again.to_string(), again.text(kind)),
                (text.clone(), Ok(text.clone()))
            );
        }
        let octets = text.map(String::into_bytes);
        self.expect_octets(octets.map_err(|error| error.status()));
    }

    fn ask_text(&self) {
        let (kind, text) = (self.numbers[0], &self.runs[0]);
        let (start, len) = (text.as_ptr().cast(), text.len());
        self.ask_set(|out| unsafe { sys::pigy_set_from_text(start, len, kind, out) });
        if let (Ok(text), Some(kind)) = (std::str::from_utf8(text), kind_of(kind)) {
            self.expect(Resources::from_text(text, kind));
        }
    }

    fn ask_origins(&self) {
        let vrps: Vec<_> = self.runs[0].chunks(23).map(c_vrp).collect();
        let routes: Vec<_> = self.runs[2].chunks(22).map(c_route).collect();
        self.ask_octets(|out, capacity, len| {
            let mut index = usize::MAX;
            let (first, second) = (vrps.as_ptr(), routes.as_ptr());
            let (vrps, routes) = (vrps.len(), routes.len());
            let status = unsafe {
                sys::pigy_validate(first, vrps, second, routes, out, capacity, len, &mut index)
            };
            assert_eq!(Some(index), self.last, "{}", self.text);
            status
        });
        let Some(table) = self.table(0) else { return };
        let Some(routes) = self.values(2, 22, true, route) else {
            return;
        };
        let found = table.validate_routes(&routes);
        let numbers: Vec<u8> = found.iter().map(|it| it.number()).collect();
        let reason = |it: &Validity| match it {
            Validity::Invalid(InvalidReason::As) => 1,
            Validity::Invalid(InvalidReason::Length) => 2,
            _ => 0,
        };
        let reasons: Vec<u8> = found.iter().map(reason).collect();
        assert_eq!((numbers, reasons), self.expected, "{}", self.text);
        assert_eq!(self.status, PIGY_OK, "{}", self.text);
        self.ask_several(&routes, &found);
        for (route, validity) in routes.iter().zip(found) {
            assert_eq!(table.validate(route), validity, "{}", self.text);
        }
    }

    /// Validates the routes of a golden test by several tables, which have its VRPs: each has one of three.
    fn ask_several(&self, routes: &[Route], wanted: &[Validity]) {
        let vrps = self.values(0, 23, false, vrp).unwrap();
        let part = |at| -> Vec<Vrp> { vrps.iter().copied().skip(at).step_by(3).collect() };
        let tables = [0, 1, 2].map(|at| Table::new(&part(at)).unwrap());
        assert_eq!(validate_routes(&tables, routes), wanted, "{}", self.text);
        if vrps.is_empty() {
            assert_eq!(validate_routes([], routes), wanted, "{}", self.text);
        }
    }

    /// Returns the VRPs or the routes of a word. If one of them is invalid, checks that the golden test says so.
    fn values<T>(
        &self,
        at: usize,
        len: usize,
        is_second: bool,
        value: impl Fn(&[u8]) -> Option<T>,
    ) -> Option<Vec<T>> {
        match all(&self.runs[at], len, value) {
            Ok(values) => Some(values),
            Err(index) => {
                assert_eq!(
                    PIGY_KIND(self.status),
                    sys::PIGY_BAD_ARGUMENT,
                    "{}",
                    self.text
                );
                let found = (self.status & PIGY_SECOND != 0, self.last);
                assert_eq!(found, (is_second, Some(index)), "{}", self.text);
                None
            }
        }
    }

    fn table(&self, at: usize) -> Option<Table> {
        let vrps = self.values(at, 23, false, vrp)?;
        Some(Table::new(&vrps).unwrap())
    }

    /// Compares the status and the index of an error with those of the golden test.
    fn expect_refused(&self, error: TableError) {
        let found = (error.status(), error.index());
        assert_eq!(found, (self.status, self.last), "{}", self.text);
    }

    fn ask_covering(&self) {
        let Some(table) = self.table(0) else { return };
        let Some(routes) = self.values(2, 22, true, route) else {
            return;
        };
        let octets = |it: &pigyelund::Covering| {
            let why = u8::from(it.is_other_as()) + 2 * u8::from(it.is_too_long());
            assert_eq!(it.is_match(), why == 0);
            [vrp_octets(&it.vrp()), vec![why]].concat()
        };
        let found = table.covering(&routes[0]).unwrap();
        self.expect_octets(Ok(found.iter().flat_map(octets).collect()));
    }

    /// Compares all VRPs of a table, or of the next table, with those of the golden test.
    fn ask_vrps(&self) {
        let Some(table) = self.table(0) else { return };
        if self.call == "vrps" {
            return self.expect_octets(Ok(table_octets(&table)));
        }
        let before = table_octets(&table);
        let Some(announced) = self.values(2, 23, false, vrp) else {
            return;
        };
        let Some(withdrawn) = self.values(3, 23, true, vrp) else {
            return;
        };
        match table.with_changes(&announced, &withdrawn) {
            Ok(next) => {
                self.expect_octets(Ok(table_octets(&next)));
                let changes = table.changes(&next).unwrap();
                let again = table.with_changes(&changes.announced, &changes.withdrawn);
                assert_eq!(distinct(&again.unwrap()), distinct(&next), "{}", self.text);
            }
            Err(error) => self.expect_refused(error),
        }
        assert_eq!(table_octets(&table), before, "{}", self.text);
    }

    /// Compares the VRPs in which two tables differ with those of the golden test. They turn the one table into the
    /// other.
    fn ask_changes(&self) {
        let [old, new] = [0, 1].map(|at| self.table(at).unwrap());
        let octets = |vrps: &[Vrp]| -> Vec<u8> { vrps.iter().flat_map(vrp_octets).collect() };
        let (there, back) = (old.changes(&new).unwrap(), new.changes(&old).unwrap());
        let found = (octets(&there.announced), octets(&there.withdrawn));
        assert_eq!(
            (self.status, &found),
            (PIGY_OK, &self.expected),
            "{}",
            self.text
        );
        let found = (octets(&back.withdrawn), octets(&back.announced));
        assert_eq!(found, self.expected, "{}", self.text);
        let again = old.with_changes(&there.announced, &there.withdrawn);
        assert_eq!(distinct(&again.unwrap()), distinct(&new), "{}", self.text);
    }

    /// Compares the routes whose validity differs between two tables with those of the golden test.
    fn ask_differ(&self) {
        let [old, new] = [0, 1].map(|at| self.table(at).unwrap());
        let Some(routes) = self.values(2, 22, true, route) else {
            return;
        };
        let found = old.revalidate(&new, &routes);
        let marks = self.expected.0.iter().enumerate();
        let marked: Vec<usize> = marks.filter(|it| *it.1 == 1).map(|it| it.0).collect();
        assert_eq!((PIGY_OK, found), (self.status, marked), "{}", self.text);
        assert!(new.revalidate(&new, &routes).is_empty());
    }

    fn ask_answer(&self) {
        let line = &self.runs[0];
        let (start, len) = (line.as_ptr().cast(), line.len());
        self.ask_octets(|out, capacity, written| unsafe {
            sys::pigy_answer(start, len, out.cast(), capacity, written)
        });
        let found = answer(line).map(String::into_bytes);
        self.expect_octets(found.map_err(|error| error.status()));
    }

    /// Reads the file of a golden test, with buffers of each length up to the needed one and with one more.
    fn ask_read(&self) {
        let file = &self.runs[0];
        self.ask_items(23, c_vrp_octets, |out, capacity, len| {
            let mut line = usize::MAX;
            let (start, file) = (file.as_ptr(), file.len());
            let status = unsafe { sys::pigy_vrps_read(start, file, out, capacity, len, &mut line) };
            assert_eq!(Some(line), self.last, "{}", self.text);
            status
        });
        match read_vrps(file) {
            Ok(vrps) => {
                assert_eq!(Table::read(file).unwrap().len(), vrps.len());
                self.expect_octets(Ok(vrps.iter().flat_map(vrp_octets).collect()));
            }
            Err(error) => {
                let found = (error.status(), Some(error.line().unwrap_or(0)));
                assert_eq!(found, (self.status, self.last), "{}", self.text);
                assert_eq!(Table::read(file).unwrap_err(), error);
            }
        }
    }

    /// Reads the unexpired VRPs of the file of a golden test, as `ask_read` reads all.
    fn ask_unexpired(&self) {
        let file = &self.runs[0];
        let time = u64::from(self.numbers[0]) << 32 | u64::from(self.numbers[1]);
        let is_valid = self.status == PIGY_OK;
        let last = self.last.unwrap();
        let wanted = if is_valid { (last, 0) } else { (0, last) };
        self.ask_items(23, c_vrp_octets, |out, capacity, len| {
            let (mut expired, mut line) = (usize::MAX, usize::MAX);
            let (start, file) = (file.as_ptr(), file.len());
            let status = unsafe {
                sys::pigy_vrps_read_unexpired(
                    start,
                    file,
                    time,
                    out,
                    capacity,
                    len,
                    &mut expired,
                    &mut line,
                )
            };
            assert_eq!((expired, line), wanted, "{}", self.text);
            status
        });
        match read_unexpired_vrps(file, time) {
            Ok(found) => {
                let table = Table::read_unexpired(file, time).unwrap();
                assert_eq!(table.len(), found.vrps.len());
                assert_eq!(found.expired, last, "{}", self.text);
                self.expect_octets(Ok(found.vrps.iter().flat_map(vrp_octets).collect()));
            }
            Err(error) => {
                let found = (error.status(), error.line().unwrap_or(0));
                assert_eq!(found, (self.status, last), "{}", self.text);
                assert_eq!(Table::read_unexpired(file, time).unwrap_err(), error);
            }
        }
    }

    /// Applies the SLURM file of a golden test, with buffers of each length up to the needed one and with one more.
    fn ask_slurm(&self) {
        let file = &self.runs[0];
        let given: Vec<_> = self.runs[1].chunks(23).map(c_vrp).collect();
        let last = self.last.unwrap();
        let is_vrp = PIGY_KIND(self.status) == sys::PIGY_BAD_ARGUMENT;
        let wanted = if is_vrp { (last, 0) } else { (0, last) };
        self.ask_items(23, c_vrp_octets, |out, capacity, len| {
            let (mut index, mut item) = (usize::MAX, usize::MAX);
            let (first, vrps) = (given.as_ptr(), given.len());
            let (start, file) = (file.as_ptr(), file.len());
            let status = unsafe {
                sys::pigy_slurm_apply(
                    start, file, first, vrps, out, capacity, len, &mut index, &mut item,
                )
            };
            assert_eq!((index, item), wanted, "{}", self.text);
            status
        });
        let Some(vrps) = self.values(1, 23, false, vrp) else {
            return;
        };
        let found = apply_slurm(file, &vrps);
        if let Err(error) = &found {
            assert_eq!(error.item().unwrap_or(0), last, "{}", self.text);
            let is_item = PIGY_KIND(self.status) == sys::PIGY_BAD_SLURM_ITEM;
            assert_eq!(error.list().is_some(), is_item, "{}", self.text);
        }
        let octets = found.map(|vrps| vrps.iter().flat_map(vrp_octets).collect());
        self.expect_octets(octets.map_err(|error| error.status()));
    }

    /// Reads the lines of a golden test, with buffers of each length up to the needed one and with one more.
    fn ask_routes(&self) {
        let lines = &self.runs[0];
        let (start, size) = (lines.as_ptr().cast(), lines.len());
        self.ask_items(22, c_route_octets, |out, capacity, len| {
            let mut at = usize::MAX;
            let status = unsafe { sys::pigy_routes_read(start, size, out, capacity, len, &mut at) };
            assert_eq!(Some(at), self.last, "{}", self.text);
            status
        });
        match read_routes(lines) {
            Ok(routes) => self.expect_octets(Ok(routes.iter().flat_map(route_octets).collect())),
            Err(error) => {
                let found = (error.status(), error.line());
                assert_eq!(found, (self.status, self.last), "{}", self.text);
            }
        }
    }

    /// Reads the text of a VRP. With an error all members are 0.
    fn ask_vrp_from_text(&self) {
        let (text, mut out) = (&self.runs[0], c_vrp(&[UNTOUCHED; 23]));
        let (start, len) = (text.as_ptr().cast(), text.len());
        let status = unsafe { sys::pigy_vrp_from_text(start, len, &mut out) };
        let is_ok = status == PIGY_OK;
        let wanted = if is_ok {
            &self.expected.0[..]
        } else {
            &[0; 23]
        };
        let found = (status, c_vrp_octets(&out));
        assert_eq!(found, (self.status, wanted.to_vec()), "{}", self.text);
        if let Ok(text) = std::str::from_utf8(text) {
            let found = text.parse().map(|it: Vrp| vrp_octets(&it));
            self.expect_octets(found.map_err(status_of));
        }
    }

    /// Reads the text of a route. With an error all members are 0.
    fn ask_route_from_text(&self) {
        let (text, mut out) = (&self.runs[0], c_route(&[UNTOUCHED; 22]));
        let (start, len) = (text.as_ptr().cast(), text.len());
        let status = unsafe { sys::pigy_route_from_text(start, len, &mut out) };
        let is_ok = status == PIGY_OK;
        let wanted = if is_ok {
            &self.expected.0[..]
        } else {
            &[0; 22]
        };
        let found = (status, c_route_octets(&out));
        assert_eq!(found, (self.status, wanted.to_vec()), "{}", self.text);
        if let Ok(text) = std::str::from_utf8(text) {
            let found = text.parse().map(|it: Route| route_octets(&it));
            self.expect_octets(found.map_err(status_of));
        }
    }

    /// Writes the text of a VRP, and reads it back.
    fn ask_vrp_text(&self) {
        let given = c_vrp(&self.runs[0]);
        self.ask_octets(|out, capacity, len| unsafe {
            sys::pigy_vrp_text(&given, out.cast(), capacity, len)
        });
        if let Some(vrp) = vrp(&self.runs[0]) {
            self.expect_octets(Ok(vrp.to_string().into_bytes()));
            assert_eq!(vrp.to_string().parse(), Ok(vrp));
        }
    }

    /// Writes the text of a route, and reads it back.
    fn ask_route_text(&self) {
        let given = c_route(&self.runs[0]);
        self.ask_octets(|out, capacity, len| unsafe {
            sys::pigy_route_text(&given, out.cast(), capacity, len)
        });
        if let Some(route) = route(&self.runs[0]) {
            self.expect_octets(Ok(route.to_string().into_bytes()));
            assert_eq!(route.to_string().parse(), Ok(route));
        }
    }

    fn ask(&self) {
        match self.call {
            "verify" => self.ask_verify(),
            "path" => self.ask_path(),
            "cover" => self.ask_cover(),
            "origins" => self.ask_origins(),
            "covering" => self.ask_covering(),
            "vrps" | "changed" => self.ask_vrps(),
            "changes" => self.ask_changes(),
            "answer" => self.ask_answer(),
            "differ" => self.ask_differ(),
            "read" => self.ask_read(),
            "unexpired" => self.ask_unexpired(),
            "slurm" => self.ask_slurm(),
            "routes" => self.ask_routes(),
            "vrp_from_text" => self.ask_vrp_from_text(),
            "route_from_text" => self.ask_route_from_text(),
            "vrp_text" => self.ask_vrp_text(),
            "route_text" => self.ask_route_text(),
            "text" => self.ask_text(),
            "print" => self.ask_print(),
            "as_ranges" => self.ask_as_ranges(),
            "ip_ranges" => self.ask_ip_ranges(),
            "union" => self.ask_operation(Some(sys::pigy_union), Resources::union, |a, b| a | b),
            "intersection" => self.ask_operation(
                Some(sys::pigy_intersection),
                Resources::intersection,
                |a, b| a & b,
            ),
            "difference" => {
                self.ask_operation(Some(sys::pigy_difference), Resources::difference, |a, b| {
                    a - b
                })
            }
            "symmetric_difference" => {
                self.ask_operation(None, Resources::symmetric_difference, |a, b| a ^ b)
            }
            "contains" => self.ask_comparison(sys::pigy_contains, |a, b| a.contains(b)),
            "equal" => self.ask_comparison(sys::pigy_equal, |a, b| a == b),
            "contains_asn" => self.ask_contains_asn(),
            "contains_prefix" => self.ask_contains_prefix(),
            call => panic!("no call {call}"),
        }
    }
}

/// Returns the VRPs of a table, each once.
fn distinct(table: &Table) -> Vec<Vrp> {
    let mut vrps = table.vrps().unwrap();
    vrps.dedup();
    vrps
}

/// Returns the text of a test file that all languages share. `tests/run/foreign_rows.py` of the repository writes it
/// into `out/foreign`. The package has it in `tests/shared`. A copy that packing left in the repository is not read.
fn shared(name: &str) -> String {
    let top = env!("CARGO_MANIFEST_DIR");
    std::fs::read_to_string(format!("{top}/../../out/foreign/{name}"))
        .or_else(|_| std::fs::read_to_string(format!("{top}/tests/shared/{name}")))
        .unwrap()
}

#[test]
fn rows_are_answered() {
    let rows = shared("rows.txt");
    assert!(rows.lines().count() > 2000);
    rows.lines().for_each(|text| Row::new(text).ask());
}

/// Each thread makes all golden tests, and begins at a different one.
#[test]
fn rows_are_answered_on_threads() {
    let text = shared("rows.txt");
    let rows: Vec<Row> = text.lines().map(Row::new).collect();
    thread::scope(|scope| {
        for at in 0..THREADS {
            let (behind, front) = rows.split_at(rows.len() * at / THREADS);
            scope.spawn(move || front.iter().chain(behind).for_each(Row::ask));
        }
    });
}

/// Returns the numbers with their names: the constants, and those of the enums.
fn named() -> Vec<(&'static str, u32)> {
    macro_rules! constants {
        ($($name:ident)*) => { vec![$((stringify!($name), sys::$name)),*] };
    }
    let found = constants! {
        PIGY_OK PIGY_TOO_SMALL PIGY_MEMORY PIGY_BAD_ARGUMENT PIGY_BAD_ENCODING PIGY_BAD_MODE PIGY_BAD_PRESENT
        PIGY_BAD_FAMILY PIGY_BAD_KIND PIGY_BAD_PREFIX PIGY_BAD_MAX_LEN PIGY_OUTSIDE PIGY_NO_HANDLE PIGY_BAD_AS
        PIGY_BAD_IP PIGY_INHERITED PIGY_ABSENT PIGY_OVERCLAIM PIGY_OVERCLAIM_V4 PIGY_OVERCLAIM_AS PIGY_OVERCLAIM_V6
        PIGY_BAD_CHANGE PIGY_UNKNOWN_WITHDRAWAL PIGY_DUPLICATE_ANNOUNCEMENT PIGY_BAD_LINE PIGY_BAD_ITEM
        PIGY_BAD_FILE PIGY_BAD_TEXT PIGY_BAD_QUERY PIGY_BAD_ROUTE PIGY_BAD_SLURM PIGY_SECOND PIGY_BAD_SLURM_ITEM
        PIGY_HAS_AS PIGY_HAS_IP PIGY_HAS_BOTH PIGY_NO_VALIDITY PIGY_OTHER_AS PIGY_TOO_LONG PIGY_VRP_TEXT_MAX
        PIGY_ROUTE_TEXT_MAX
    };
    let found = found
        .into_iter()
        .map(|it| (it.0.trim_start_matches("PIGY_"), it.1));
    let invalid = Validity::Invalid(InvalidReason::As);
    let of_enums = [
        ("LENIENT", Encoding::Lenient as u32),
        ("STRICT", Encoding::Strict as u32),
        ("REFUSE", Mode::Refuse as u32),
        ("TRIM", Mode::Trim as u32),
        ("ASN", Kind::Asn as u32),
        ("IPV4", Family::V4 as u32),
        ("IPV6", Family::V6 as u32),
        ("VALID", Validity::Valid.number().into()),
        ("NOT_FOUND", Validity::NotFound.number().into()),
        ("INVALID", invalid.number().into()),
        ("INVALID_AS", InvalidReason::As as u32),
        ("INVALID_LENGTH", InvalidReason::Length as u32),
        ("VERSION_NUMBER", version()),
    ];
    found.chain(of_enums).collect()
}

#[test]
fn names_have_their_numbers() {
    let text = shared("numbers.txt");
    let stored: BTreeMap<&str, u32> = text
        .lines()
        .map(|line| line.trim_start_matches("NUMBER(").trim_end_matches(')'))
        .map(|line| line.split_once(", ").unwrap())
        .map(|(name, number)| (name, number.parse().unwrap()))
        .collect();
    assert_eq!(named().into_iter().collect::<BTreeMap<_, _>>(), stored);
    assert_eq!(
        [Kind::from(Family::V4), Kind::from(Family::V6)],
        [Kind::V4, Kind::V6]
    );
}

/// Each status has its text. A status that the crate returns has a reason of its own, and any other status is `Other`.
#[test]
fn statuses_have_their_texts() {
    let mut reasons = Vec::new();
    for line in shared("texts.txt").lines() {
        let (status, text) = line.split_once(' ').unwrap();
        let status = status.parse().unwrap();
        assert_eq!(status_text(status), text);
        let of_caller = [PIGY_OK, PIGY_TOO_SMALL, sys::PIGY_BAD_ARGUMENT];
        let is_other = of_caller.contains(&PIGY_KIND(status)) || text == "unknown status";
        let reason = Reason::from_status(status);
        assert_eq!(reason == Reason::Other(status), is_other, "{line}");
        if status & PIGY_SECOND == 0 {
            assert!(!reasons.contains(&reason), "{line}");
            reasons.push(reason);
        } else if !is_other {
            assert_eq!(Reason::from_status(status - PIGY_SECOND), reason);
        }
    }
    assert!(reasons.len() > 150);
    for status in [1, 255, 0x300, 0x80f, 0x8007, 0x20008, 0x40003, 0x4000001] {
        assert_eq!(Reason::from_status(status), Reason::Other(status));
        assert_eq!(status_text(status), "unknown status");
    }
    for kind in [sys::PIGY_BAD_SLURM, sys::PIGY_BAD_SLURM_ITEM] {
        for status in kind..kind + 256 {
            let is_other = Reason::from_status(status) == Reason::Other(status);
            assert_eq!(is_other, status_text(status) == "unknown status");
        }
    }
    // PIGY_SECOND is added to the kinds of sets only.
    for kind in [sys::PIGY_MEMORY, sys::PIGY_ABSENT, sys::PIGY_OVERCLAIM_V4] {
        let status = PIGY_SECOND + kind;
        assert_eq!(Reason::from_status(status), Reason::Other(status));
    }
}

/// A call with a null handle has the status `PIGY_NO_HANDLE`. The calls that free do nothing.
#[test]
fn null_handles_are_refused() {
    let table: *const sys::pigy_table = null();
    let set: *const sys::pigy_resources = null();
    let route = c_route(&[0; 22]);
    let (mut out, mut octet, mut len, mut index) = (null_mut(), [0], 0, 0);
    let (mut sets, mut yes) = (null_mut(), UNTOUCHED);
    let mut lens = [usize::MAX; 2];
    let found = unsafe {
        sys::pigy_table_free(null_mut());
        sys::pigy_resources_free(null_mut());
        let octets = octet.as_mut_ptr();
        let [announced, withdrawn] = &mut lens;
        [
            sys::pigy_table_validate(table, &route, &mut octet[0], &mut 0),
            sys::pigy_table_validate_routes(
                table,
                &route,
                1,
                octets,
                1,
                null_mut(),
                0,
                &mut len,
                &mut index,
            ),
            sys::pigy_tables_validate_routes(
                &table,
                1,
                &route,
                1,
                octets,
                1,
                null_mut(),
                0,
                &mut len,
                &mut index,
            ),
            sys::pigy_table_revalidate(table, table, &route, 1, octets, 1, &mut len, &mut index),
            sys::pigy_table_changes(
                table,
                table,
                null_mut(),
                0,
                announced,
                null_mut(),
                0,
                withdrawn,
            ),
            sys::pigy_table_covering(table, &route, null_mut(), 0, &mut len),
            sys::pigy_table_len(table, &mut len),
            sys::pigy_table_vrps(table, null_mut(), 0, &mut len),
            sys::pigy_table_with_changes(table, null(), 0, null(), 0, &mut out, &mut index),
            sys::pigy_resources_union(set, set, &mut sets),
            sys::pigy_resources_contains(set, set, &mut yes),
            sys::pigy_resources_equal(set, set, &mut yes),
        ]
    };
    assert_eq!(found, [sys::PIGY_NO_HANDLE; 12]);
    assert_eq!(
        (out, sets, len, index, yes, lens),
        (null_mut(), null_mut(), 0, 0, 0, [0, 0])
    );
}
