//! A session of the peering core, safe to use: only the calls of the library are `unsafe`.
//!
//! ```sh
//! tools/build_c_library.sh /tmp/pgpeer
//! cd examples/rust && PGPEER_DIR=/tmp/pgpeer cargo test --offline
//! ```

use pgpeer_sys as raw;

pub use raw::{Log, Member, Object, Peer, Place, View};

/// Stands for no device.
pub const NO_DEVICE: u16 = 65535;

/// Lines of versions 1 and 2 are read.
const FORMAT: u32 = 2;

const DONE: u32 = 0;
const ROOM_TOO_SMALL: u32 = 1;
const NO_MEMORY: u32 = 2;

/// Why a call wasn't done.
#[derive(Debug, PartialEq, Eq)]
pub enum Fault {
    /// There was no memory, and the log is as before.
    NoMemory,
    /// The number of this status, or of the refusal: those of pgpeer.h.
    Status(u32),
}

impl std::fmt::Display for Fault {
    fn fmt(&self, out: &mut std::fmt::Formatter) -> std::fmt::Result {
        match self {
            Fault::NoMemory => write!(out, "no memory"),
            Fault::Status(number) => write!(out, "status {number}"),
        }
    }
}

impl std::error::Error for Fault {}

fn done(status: u32) -> Result<(), Fault> {
    match status {
        DONE => Ok(()),
        NO_MEMORY => Err(Fault::NoMemory),
        status => Err(Fault::Status(status)),
    }
}

/// One log, told and asked by one call at a time, from whichever thread.
pub struct Session {
    kept: raw::Session,
    room: Vec<u8>,
}

impl Session {
    /// An empty log.
    pub fn open() -> Result<Self, Fault> {
        Ok(Self::of_lines(b"")?.0)
    }

    /// The log that these lines make, and how many of them were refused.
    pub fn of_lines(lines: &[u8]) -> Result<(Self, usize), Fault> {
        let (mut kept, mut refused) = (raw::Session::zeros(), 0);
        // SAFETY: the session is filled with zeros, and the lines are as long as is said.
        done(unsafe { raw::pgp_open_lines(&mut kept, FORMAT, lines.as_ptr(), lines.len(), &mut refused) })?;
        Ok((Session { kept, room: vec![0; 4096] }, refused))
    }

    /// The answer to a line, which is given without its line feed.
    pub fn tell(&mut self, line: &[u8]) -> Result<&[u8], Fault> {
        let (room, mut wanted) = (&mut self.room, 0);
        // SAFETY: the slices are as long as is said, and the session is this one's alone.
        let mut status = unsafe { raw::pgp_line(&mut self.kept, line.as_ptr(), line.len(), room.as_mut_ptr(), room.len(), &mut wanted) };
        if status == ROOM_TOO_SMALL {
            room.resize(wanted, 0);
            // SAFETY: as above.
            status = unsafe { raw::pgp_answer(&mut self.kept, room.as_mut_ptr(), room.len(), &mut wanted) };
        }
        done(status)?;
        Ok(&self.room[..wanted])
    }

    /// What the session knows of its log.
    pub fn log(&mut self) -> Result<Log, Fault> {
        let mut log = Log::default();
        // SAFETY: the session is this one's alone.
        done(unsafe { raw::pgp_ask_log(&mut self.kept, &mut log) })?;
        Ok(log)
    }

    /// Where the object of this name lies.
    pub fn locate(&mut self, pool: u32, name: &str) -> Result<Place, Fault> {
        let mut place = Place::default();
        // SAFETY: the name is as long as is said.
        done(unsafe { raw::pgp_locate(&mut self.kept, pool, name.as_ptr(), name.len(), &mut place) })?;
        Ok(place)
    }

    /// What the log says of a group.
    pub fn ask(&mut self, pool: u32, pg: u32) -> Result<View, Fault> {
        let mut view = View::default();
        // SAFETY: the session is this one's alone.
        done(unsafe { raw::pgp_ask(&mut self.kept, pool, pg, &mut view) })?;
        Ok(view)
    }

    /// The members of a group that have to be heard.
    pub fn probe(&mut self, pool: u32, pg: u32) -> Result<Vec<Member>, Fault> {
        let kept = &mut self.kept;
        // SAFETY: the room has the length that is said.
        listed(|room, length, count| unsafe { raw::pgp_probe(kept, pool, pg, room, length, count) })
    }

    /// The states of the group's other members that were heard.
    pub fn missing(&mut self, pool: u32, pg: u32) -> Result<Vec<Peer>, Fault> {
        let kept = &mut self.kept;
        // SAFETY: the room has the length that is said.
        listed(|room, length, count| unsafe { raw::pgp_missing(kept, pool, pg, room, length, count) })
    }

    /// The objects that a member lacks whose state is 0, missing. Of any other one it is a fault, of status 6.
    pub fn missing_objects(&mut self, pool: u32, pg: u32, osd: u32, slot: u32) -> Result<Vec<Object>, Fault> {
        let kept = &mut self.kept;
        // SAFETY: the room has the length that is said.
        listed(|room, length, count| unsafe { raw::pgp_missing_objects(kept, pool, pg, osd, slot, room, length, count) })
    }

    /// Leaves out reports that no answer needs any more, and says how many they were.
    pub fn compact(&mut self) -> Result<usize, Fault> {
        let mut left_out = 0;
        // SAFETY: the session is this one's alone.
        done(unsafe { raw::pgp_compact_log(&mut self.kept, &mut left_out) })?;
        Ok(left_out)
    }
}

/// A list that a call puts into room: it is called once more where the first room was too small.
fn listed<T: Clone + Default>(mut call: impl FnMut(*mut T, usize, &mut usize) -> u32) -> Result<Vec<T>, Fault> {
    let (mut room, mut count) = (vec![T::default(); 16], 0);
    let mut status = call(room.as_mut_ptr(), room.len(), &mut count);
    if status == ROOM_TOO_SMALL {
        room.resize(count, T::default());
        status = call(room.as_mut_ptr(), room.len(), &mut count);
    }
    done(status)?;
    room.truncate(count);
    Ok(room)
}

impl Drop for Session {
    fn drop(&mut self) {
        // SAFETY: the session is as the last call left it.
        unsafe { raw::pgp_close(&mut self.kept) };
    }
}
