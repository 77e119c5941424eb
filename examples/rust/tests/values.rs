//! The calls that give values, and a session that goes from thread to thread.

use pgpeer::{Fault, Member, Session, NO_DEVICE};

fn tell_outage(session: &mut Session) {
    for line in std::fs::read("../outage.jsonl").unwrap().split(|byte| *byte == b'\n') {
        session.tell(line).unwrap();
    }
}

#[test]
fn an_outage_in_values() {
    let mut session = Session::open().unwrap();
    assert_eq!(session.ask(1, 0).err(), Some(Fault::Status(40)));
    tell_outage(&mut session);
    let view = session.ask(1, 0).unwrap();
    assert_eq!((view.verdict, view.best_osd, view.up_primary, view.missing), (7, 1, NO_DEVICE, 1));
    assert_eq!(session.probe(1, 0).unwrap(), [Member { osd: 1, slot: 0 }, Member { osd: 2, slot: 0 }]);
    let peer = session.missing(1, 0).unwrap()[0];
    assert_eq!((peer.osd, peer.slot, peer.state, peer.objects), (2, 0, 0, 1));
    let objects = session.missing_objects(1, 0, 2, 0).unwrap();
    assert_eq!(objects.iter().map(|object| (object.name(), object.epoch, object.number)).collect::<Vec<_>>(), [("b", 1, 2)]);
    assert_eq!(session.missing_objects(1, 0, 1, 0).err(), Some(Fault::Status(6)));
    let place = session.locate(1, "a").unwrap();
    assert_eq!((place.epoch, place.acting_length, place.acting[0], place.acting_primary), (3, 2, 1, 1));
    assert_eq!(session.locate(1, "").err(), Some(Fault::Status(5)));
    assert_eq!(session.locate(2, "a").err(), Some(Fault::Status(42)));
    assert_eq!((session.compact(), session.ask(1, 0).unwrap().count), (Ok(0), 6));
}

#[test]
fn a_session_goes_on_in_another_thread() {
    let session = Session::open().unwrap();
    let told = std::thread::spawn(move || {
        let mut session = session;
        tell_outage(&mut session);
        session
    });
    let mut session = told.join().unwrap();
    assert_eq!(session.ask(1, 0).unwrap().verdict, 7);
}
