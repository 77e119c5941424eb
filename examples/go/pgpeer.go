// Package pgpeer has a session of the peering core, by cgo over the archive that tools/build_c_library.sh makes.
package pgpeer

// #cgo pkg-config: pgpeer
// #include <pgpeer.h>
import "C"

import "fmt"

// A Fault says why a call wasn't done: its status, or the number of the refusal.
type Fault uint32

func (fault Fault) Error() string {
	return fmt.Sprintf("%s, status %d", C.GoString(C.pgp_status_name(C.uint32_t(fault))), uint32(fault))
}

func done(status C.uint32_t) error {
	if status == C.PGP_DONE {
		return nil
	}
	return Fault(status)
}

// A Session is one log. One goroutine at a time uses it, and Close ends it.
type Session struct {
	session C.pgp_session
	room    []byte
}

// A View is what the log says of a group, as far as it is needed here.
type View struct {
	Verdict string
	Count   int
	Epoch   uint32
	Best    uint16 // the device of the best member, or NoDevice
}

// NoDevice stands for no device.
const NoDevice = C.PGP_NO_DEVICE

// start points to the first byte of a list, or to some byte where it has none.
func start(bytes []byte) *C.uint8_t {
	if len(bytes) == 0 {
		bytes = []byte{0}
	}
	return (*C.uint8_t)(&bytes[0])
}

// Open begins with the log that these lines make, and says how many of them were refused.
func Open(lines []byte) (*Session, int, error) {
	session := &Session{room: make([]byte, 4096)}
	var refused C.size_t
	err := done(C.pgp_open_lines(&session.session, 2, start(lines), C.size_t(len(lines)), &refused))
	return session, int(refused), err
}

// Close frees what the session has.
func (session *Session) Close() error {
	return done(C.pgp_close(&session.session))
}

// Tell gives the answer to a line, which is given without its line feed.
func (session *Session) Tell(line []byte) ([]byte, error) {
	var wanted C.size_t
	room := session.room
	status := C.pgp_line(&session.session, start(line), C.size_t(len(line)), start(room), C.size_t(len(room)), &wanted)
	if status == C.PGP_ROOM_TOO_SMALL {
		room = make([]byte, wanted)
		session.room = room
		status = C.pgp_answer(&session.session, start(room), C.size_t(len(room)), &wanted)
	}
	return room[:wanted], done(status)
}

// Count says how many entries the log has.
func (session *Session) Count() (int, error) {
	var log C.pgp_log
	err := done(C.pgp_ask_log(&session.session, &log))
	return int(log.count), err
}

// Ask gives what the log says of a group.
func (session *Session) Ask(pool, pg uint32) (View, error) {
	var view C.pgp_view
	if err := done(C.pgp_ask(&session.session, C.uint32_t(pool), C.uint32_t(pg), &view)); err != nil {
		return View{}, err
	}
	verdict := C.GoString(C.pgp_verdict_name(view.verdict))
	return View{verdict, int(view.count), uint32(view.epoch), uint16(view.best_osd)}, nil
}
