//! A bare UDP echo over loopback in one thread: as many datagrams of these sizes as are asked, and the seconds that it took.
//!
//! Words: how many times, and then the sizes of the datagrams of one time.

use std::net::UdpSocket;
use std::time::Instant;

fn main() {
    let words: Vec<usize> = std::env::args().skip(1).map(|word| word.parse().unwrap()).collect();
    let (times, sizes) = words.split_first().unwrap();
    let ours = UdpSocket::bind("127.0.0.1:0").unwrap();
    let theirs = UdpSocket::bind("127.0.0.1:0").unwrap();
    let (us, them) = (ours.local_addr().unwrap(), theirs.local_addr().unwrap());
    let mut room = vec![0u8; 65_535];
    let began = Instant::now();
    for _ in 0..*times {
        for (place, size) in sizes.iter().enumerate() {
            let (from, to, address) = if place % 2 == 0 { (&ours, &theirs, them) } else { (&theirs, &ours, us) };
            from.send_to(&room[..*size], address).unwrap();
            assert_eq!(to.recv_from(&mut room).unwrap().0, *size);
        }
    }
    println!("{}", began.elapsed().as_secs_f64());
}
