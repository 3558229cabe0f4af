//! Keeps the table of a daemon. One thread stores routes with their validities, and another one applies the changes of
//! a cache (RFC 8210). Prints the results of some changes. While both threads run, it counts wrong validities.
use pigyelund::{Prefix, Reason, Route, Table, TableError, ValueError, Vrp};
use std::sync::{Arc, Mutex, RwLock};
use std::{collections::BTreeMap, error::Error, net::Ipv4Addr, thread};

struct Daemon {
    /// Locked during a whole change: the next one begins after this one has revalidated.
    change: Mutex<()>,
    table: RwLock<Arc<Table>>,
    /// The number of each route's validity (RFC 8097), without the reason, which `revalidate` does not compare.
    routes: Mutex<BTreeMap<Route, u8>>,
}

impl Daemon {
    /// Stores a route of an UPDATE with its validity. The address may have bits set after the length.
    fn store(&self, address: Ipv4Addr, len: u8, origin: u32) -> Result<(), ValueError> {
        let route = Route::new(Prefix::containing(address, len)?, origin);
        let table = self.table.read().unwrap(); // no exchange before the validity is stored
        let validity = table.validate(&route).number();
        self.routes.lock().unwrap().insert(route, validity);
        Ok(())
    }

    /// Applies a change. Returns how many validities differ. An error changes nothing.
    fn apply(&self, announced: &[Vrp], withdrawn: &[Vrp]) -> Result<usize, TableError> {
        let _change = self.change.lock().unwrap();
        let old = Arc::clone(&self.table.read().unwrap());
        let next = Arc::new(old.with_changes(announced, withdrawn)?);
        // Exchange first, so that each later `store` uses the next table. Then revalidate.
        *self.table.write().unwrap() = Arc::clone(&next);
        let routes: Vec<Route> = self.routes.lock().unwrap().keys().copied().collect();
        let differing = old.revalidate(&next, &routes);
        for route in differing.iter().map(|at| &routes[*at]) {
            // A peer may have withdrawn the route meanwhile.
            if let Some(validity) = self.routes.lock().unwrap().get_mut(route) {
                *validity = next.validate(route).number();
            }
        }
        Ok(differing.len())
    }

    /// Applies a change, and prints its result. After an error prints the code of RFC 8210, 12 and the VRP at fault.
    fn report(&self, announced: &[Vrp], withdrawn: &[Vrp]) {
        match self.apply(announced, withdrawn) {
            Ok(count) => println!("validities that differ: {count}"),
            Err(it) => match (it.reason(), it.index()) {
                (Reason::UnknownWithdrawal, Some(at)) => println!("6: {}, {it}", withdrawn[at]),
                (Reason::DuplicateAnnouncement, Some(at)) => println!("7: {}, {it}", announced[at]),
                _ => println!("{it}"),
            },
        }
    }

    /// Returns how many stored validities are not those by the table.
    fn wrong(&self) -> usize {
        let (table, routes) = (self.table.read().unwrap(), self.routes.lock().unwrap());
        let is_wrong = |it: &(&Route, &u8)| table.validate(it.0).number() != *it.1;
        routes.iter().filter(is_wrong).count()
    }
}

fn main() -> Result<(), Box<dyn Error>> {
    let (one, two): (Vrp, Vrp) = ("10.0.0.0/9-24 AS64496".parse()?, "::/0 AS64496".parse()?);
    let daemon = Daemon {
        change: Mutex::default(),
        table: RwLock::new(Arc::new(Table::new(&[])?)),
        routes: Mutex::default(),
    };
    daemon.store(Ipv4Addr::new(10, 1, 2, 77), 24, 64496)?;
    daemon.report(&[one], &[]);
    daemon.report(&[two], &[one]);
    daemon.report(&[one], &[two, one]);
    daemon.report(&[one, two], &[]);
    thread::scope(|scope| -> Result<(), Box<dyn Error>> {
        let store = |it: u32| daemon.store(Ipv4Addr::from(0x0a00_0000 + (it << 8)), 24, 64496);
        let updates = scope.spawn(move || (0..20_000).try_for_each(store));
        let mut wrong = 0;
        while !updates.is_finished() {
            daemon.apply(&[one], &[])?;
            daemon.apply(&[], &[one])?;
            wrong += daemon.wrong();
        }
        println!("wrong stored validities: {wrong}");
        Ok(updates.join().unwrap()?)
    })
}
