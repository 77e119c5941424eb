//! Tells a session each line of standard input, prints the answers, and keeps the lines that its log took in a file. Started again,
//! it goes on from that.
//!
//! ```sh
//! PGPEER_DIR=/tmp/pgpeer cargo run --offline --example keep /tmp/log < ../outage.jsonl
//! ```

use std::error::Error;
use std::fs::{File, OpenOptions};
use std::io::{stdin, stdout, BufRead, Read, Write};

use pgpeer::Session;

/// The whole lines of a file. One that was cut off as it was written was never answered, and is taken away.
fn whole_lines(file: &mut File) -> std::io::Result<Vec<u8>> {
    let mut text = Vec::new();
    file.read_to_end(&mut text)?;
    let whole = text.iter().rposition(|byte| *byte == b'\n').map_or(0, |at| at + 1);
    text.truncate(whole);
    file.set_len(whole as u64)?;
    Ok(text)
}

fn main() -> Result<(), Box<dyn Error>> {
    let path = std::env::args_os().nth(1).ok_or("usage: keep FILE")?;
    let mut file = OpenOptions::new().read(true).append(true).create(true).open(path)?;
    let (mut session, refused) = Session::of_lines(&whole_lines(&mut file)?)?;
    if refused > 0 {
        return Err("the file has other lines than those of a log".into());
    }
    for line in stdin().lock().split(b'\n') {
        let (line, before) = (line?, session.log()?.count);
        let answer = session.tell(&line)?.to_vec();
        if session.log()?.count > before {
            file.write_all(&[&line[..], b"\n"].concat())?;
            file.sync_all()?;
        }
        stdout().write_all(&answer)?;
        stdout().flush()?;
    }
    Ok(())
}
