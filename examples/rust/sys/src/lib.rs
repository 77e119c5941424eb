//! What pgpeer.h declares, as far as the crate pgpeer uses it.

use std::mem::MaybeUninit;

/// `pgp_session`, which the library alone reads and writes. The place of its pointer is no pointer here, so that a session is `Send`,
/// as pgpeer.h lets it go from thread to thread; `MaybeUninit` keeps what the library put there whole where a session is moved.
#[repr(C)]
pub struct Session {
    is_open: bool,
    held: MaybeUninit<usize>,
}

impl Session {
    /// A session before its first call.
    pub fn zeros() -> Self {
        Session { is_open: false, held: MaybeUninit::new(0) }
    }
}

/// `pgp_place`: where an object lies.
#[repr(C)]
#[derive(Clone, Copy, Debug, Default)]
pub struct Place {
    pub epoch: u32,
    pub pg: u16,
    pub up_primary: u16,
    pub acting_primary: u16,
    pub size: u8,
    pub min_size: u8,
    pub up_length: u8,
    pub acting_length: u8,
    pub up: [u16; 16],
    pub acting: [u16; 16],
}

/// `pgp_view`: what a log says of a group.
#[repr(C)]
#[derive(Clone, Copy, Debug, Default)]
pub struct View {
    pub count: usize,
    pub intervals: usize,
    pub probe: usize,
    pub blocked_by: usize,
    pub missing: usize,
    pub epoch: u32,
    pub first: u32,
    pub les: u32,
    pub verdict: u32,
    pub up_primary: u16,
    pub acting_primary: u16,
    pub best_osd: u16,
    pub best_slot: u8,
    pub up_length: u8,
    pub acting_length: u8,
    pub up: [u16; 16],
    pub acting: [u16; 16],
}

/// `pgp_log`: what a session knows without a group.
#[repr(C)]
#[derive(Clone, Copy, Debug, Default)]
pub struct Log {
    pub count: usize,
    pub incrementals: usize,
    pub infos: usize,
    pub parts: usize,
    pub epoch: u32,
    pub closed: u8,
}

/// `pgp_member`: a device in a slot.
#[repr(C)]
#[derive(Clone, Copy, Debug, Default, PartialEq, Eq)]
pub struct Member {
    pub osd: u16,
    pub slot: u8,
}

/// `pgp_peer`: the state of a member.
#[repr(C)]
#[derive(Clone, Copy, Debug, Default, PartialEq, Eq)]
pub struct Peer {
    pub objects: usize,
    pub osd: u16,
    pub slot: u8,
    pub state: u8,
}

/// `pgp_object`: an object that a member lacks.
#[repr(C)]
#[derive(Clone, Copy, Debug)]
pub struct Object {
    pub epoch: u32,
    pub number: u32,
    name_length: u8,
    name: [u8; 255],
}

impl Default for Object {
    fn default() -> Self {
        Object { epoch: 0, number: 0, name_length: 0, name: [0; 255] }
    }
}

impl Object {
    /// Its name.
    pub fn name(&self) -> &str {
        std::str::from_utf8(&self.name[..usize::from(self.name_length)]).unwrap_or_default()
    }
}

extern "C" {
    pub fn pgp_open_lines(session: *mut Session, format: u32, text: *const u8, length: usize, refused: *mut usize) -> u32;
    pub fn pgp_close(session: *mut Session) -> u32;
    pub fn pgp_line(session: *mut Session, line: *const u8, length: usize, room: *mut u8, room_length: usize, wanted: *mut usize) -> u32;
    pub fn pgp_answer(session: *mut Session, room: *mut u8, room_length: usize, wanted: *mut usize) -> u32;
    pub fn pgp_locate(session: *mut Session, pool: u32, name: *const u8, length: usize, place: *mut Place) -> u32;
    pub fn pgp_ask(session: *mut Session, pool: u32, pg: u32, view: *mut View) -> u32;
    pub fn pgp_probe(session: *mut Session, pool: u32, pg: u32, room: *mut Member, length: usize, count: *mut usize) -> u32;
    pub fn pgp_missing(session: *mut Session, pool: u32, pg: u32, room: *mut Peer, length: usize, count: *mut usize) -> u32;
    pub fn pgp_missing_objects(session: *mut Session, pool: u32, pg: u32, osd: u32, slot: u32, room: *mut Object, length: usize, count: *mut usize) -> u32;
    pub fn pgp_ask_log(session: *mut Session, log: *mut Log) -> u32;
    pub fn pgp_compact_log(session: *mut Session, left_out: *mut usize) -> u32;
}
