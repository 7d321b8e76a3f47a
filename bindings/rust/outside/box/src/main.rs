//! A box: it connects with a password, puts a record, gets it back, and disconnects.
//! Usage: box PORT PASSWORD LENGTH, on standard output what came of it.
use std::net::TcpStream;

use obex_client::obex_headers::{find, id, number};
use obex_client::{Connection, Headers, Settings};

fn main() -> Result<(), Box<dyn std::error::Error>> {
    let words: Vec<String> = std::env::args().collect();
    let socket = TcpStream::connect(("127.0.0.1", words[1].parse()?))?;
    let record: Vec<u8> = (0..words[3].parse::<usize>()?).map(|i| (i % 251) as u8).collect();
    let mut connection = Connection::new(socket, &Settings::default())?;
    connection.connect_with_password(&Headers::new(), None, words[2].as_bytes())?;
    let headers = Headers::new().name("log")?.length(record.len() as u32)?;
    let answer = connection.put(&headers, &record[..])?;
    println!("record {} of {} bytes", find(&answer.headers, id::COUNT).and_then(number).unwrap_or(0), record.len());
    let object = connection.get(&Headers::new().name("log")?)?;
    assert_eq!(object.body.as_deref(), Some(&record[..]));
    connection.disconnect(&[])?;
    let blocks = obex_archive::write(&record)?;
    assert_eq!(obex_archive::read(&blocks)?, record);
    println!("got it back; it takes {} blocks", blocks.len() / obex_archive::BLOCK);
    Ok(())
}
