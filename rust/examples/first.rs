// SPDX-License-Identifier: MIT
//! first: stores the address of a name, looks it up, and prints it as a line of a zone file.
use rrcache::{Cache, Config, Name, RecordType, Request, Set};

fn main() -> Result<(), Box<dyn std::error::Error>> {
    let cache = Cache::open(&Config::default())?;
    let name: Name = "www.example.".parse()?;
    cache.store_set(&Set::new(&name, RecordType::A, 3600, &[&[192, 0, 2, 1]]))?;
    let answer = cache.lookup(&Request::new(&name, RecordType::A))?;
    answer.rrsets().for_each(|rrset| println!("{rrset}"));
    Ok(())
}
