// SPDX-License-Identifier: MIT
//! answer [ADDRESS]: answers queries over UDP, as of `dig @127.0.0.1 -p 5300 www.example`.
use rrcache::{Answer, Cache, Config, Name, Query, RecordType, Request, Set};
use std::{env, io, net::UdpSocket, thread};

fn serve(cache: &Cache, socket: &UdpSocket) -> io::Result<()> {
    let (mut packet, mut answer, mut message) = ([0; 512], Answer::new(), Vec::new());
    loop {
        let (size, client) = socket.recv_from(&mut packet)?;
        let Some((header, question)) = packet[..size].split_first_chunk::<12>() else { continue };
        let Ok((name, behind)) = Name::from_front(question) else { continue };
        let (&[i1, i0, flags @ 0..8, _, 0, 1, ..], &[t1, t0, 0, 1, ..]) = (header, behind) else {
            continue; // it is not a query with one question of class IN
        };
        let (rtype, id) = (RecordType(u16::from_be_bytes([t1, t0])), u16::from_be_bytes([i1, i0]));
        let _ = cache.lookup_into(&Request::new(&name, rtype), &mut answer); // a miss if refused
        answer.compose_response(&Query::new(&name, rtype, id), 512, &mut message); // or SERVFAIL
        message[2] |= flags & 1; // RD
        let _ = socket.send_to(&message, client); // the client may be gone
    }
}

fn main() -> Result<(), Box<dyn std::error::Error>> {
    let (cache, name) = (Cache::open(&Config::default())?, "www.example.".parse()?);
    cache.store_set(&Set::new(&name, RecordType::A, 3600, &[&[192, 0, 2, 1]]))?;
    let socket = UdpSocket::bind(env::args().nth(1).unwrap_or("127.0.0.1:5300".into()))?;
    println!("{}", socket.local_addr()?);
    thread::scope(|threads| (0..4).for_each(|_| drop(threads.spawn(|| serve(&cache, &socket)))));
    Ok(())
}
