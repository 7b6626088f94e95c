package renamer

// #include <renamer.h>
import "C"

import (
	"runtime"
	"unsafe"
)

// Lane is a part of a floor, by which one goroutine at a time names clients. It is made by Open, OpenApart, Split or
// OpenAfter.
type Lane struct{ handle C.renamer_lane }

// newLane makes a lane that has nothing yet. What it gets is freed by Free, or at some collection once it is dropped.
func newLane() *Lane {
	lane := new(Lane)
	runtime.SetFinalizer(lane, (*Lane).Free)
	return lane
}

// Open opens a floor over a network of this width, for so many clients, and returns its first lane.
func Open(kind Kind, width uint32, quota uint64) (*Lane, error) {
	lane := newLane()
	err := done(C.renamer_open(&lane.handle, C.uint32_t(kind), C.uint32_t(width), C.uint64_t(quota)))
	return lane, err
}

// OpenApart opens a floor whose words lie apart, for machines of many processors.
func OpenApart(kind Kind, width uint32, quota uint64) (*Lane, error) {
	lane := newLane()
	err := done(C.renamer_open_apart(&lane.handle, C.uint32_t(kind), C.uint32_t(width), C.uint64_t(quota)))
	return lane, err
}

// Split splits off another lane, with so much of the quota.
func (lane *Lane) Split(quota uint64) (*Lane, error) {
	other := newLane()
	err := done(C.renamer_split(&lane.handle, C.uint64_t(quota), &other.handle))
	return other, err
}

// Reserve makes room for so many clients more.
func (lane *Lane) Reserve(clients uint64) error {
	return done(C.renamer_reserve(&lane.handle, C.uint64_t(clients)))
}

// Name names a client.
func (lane *Lane) Name(client, entry uint64) (uint64, error) {
	return number(func(name *C.uint64_t) C.uint32_t {
		return C.renamer_name(&lane.handle, C.uint64_t(client), C.uint64_t(entry), name)
	})
}

// NameMany names the clients of a list, and returns their grants in the order in which they left.
func (lane *Lane) NameMany(clients []Client) ([]Grant, error) {
	grants := make([]Grant, len(clients))
	var from *Client
	var to *Grant
	if len(clients) > 0 {
		from, to = &clients[0], &grants[0]
	}
	size := C.size_t(len(clients))
	err := done(C.renamer_name_many(&lane.handle, (*C.renamer_client)(unsafe.Pointer(from)), size,
		(*C.renamer_grant)(unsafe.Pointer(to)), size))
	return grants, err
}

// NameList names the clients of a list, who come in by one entry, and returns their names in the order of the list.
func (lane *Lane) NameList(clients []uint64, entry uint64) ([]uint64, error) {
	names := make([]uint64, len(clients))
	var from, to *uint64
	if len(clients) > 0 {
		from, to = &clients[0], &names[0]
	}
	size := C.size_t(len(clients))
	err := done(C.renamer_name_list(&lane.handle, (*C.uint64_t)(unsafe.Pointer(from)), size, C.uint64_t(entry),
		(*C.uint64_t)(unsafe.Pointer(to)), size))
	return names, err
}

// Enter lets a client in by an entry, where it stands last.
func (lane *Lane) Enter(client, entry uint64) error {
	return done(C.renamer_enter(&lane.handle, C.uint64_t(client), C.uint64_t(entry)))
}

// Step lets the first client on a wire pass the wire's end.
func (lane *Lane) Step(wire uint64) (moved Moved, err error) {
	err = done(C.renamer_step(&lane.handle, C.uint64_t(wire), (*C.renamer_moved)(unsafe.Pointer(&moved))))
	return moved, err
}

// Sweep lets all clients on a wire pass the wire's end.
func (lane *Lane) Sweep(wire uint64) (swept Swept, err error) {
	err = done(C.renamer_sweep(&lane.handle, C.uint64_t(wire), (*C.renamer_swept)(unsafe.Pointer(&swept))))
	return swept, err
}

// Lowest returns the least wire on which a client of the lane stands.
func (lane *Lane) Lowest() (uint64, error) {
	return number(func(wire *C.uint64_t) C.uint32_t { return C.renamer_lowest(&lane.handle, wire) })
}

// Entered returns how many clients came in by all lanes, as far as this one can know.
func (lane *Lane) Entered() (uint64, error) {
	return number(func(entered *C.uint64_t) C.uint32_t { return C.renamer_entered(&lane.handle, entered) })
}

// Quota returns how many clients more the lane may let in.
func (lane *Lane) Quota() (uint64, error) {
	return number(func(quota *C.uint64_t) C.uint32_t { return C.renamer_quota(&lane.handle, quota) })
}

// Inside returns how many clients of the lane are inside.
func (lane *Lane) Inside() (uint64, error) {
	return number(func(inside *C.uint64_t) C.uint32_t { return C.renamer_inside(&lane.handle, inside) })
}

// Entries returns how many entries the network has.
func (lane *Lane) Entries() (uint64, error) {
	return number(func(entries *C.uint64_t) C.uint32_t { return C.renamer_entries(&lane.handle, entries) })
}

// Exits returns how many exits the network has.
func (lane *Lane) Exits() (uint64, error) {
	return number(func(exits *C.uint64_t) C.uint32_t { return C.renamer_exits(&lane.handle, exits) })
}

// Grants returns the lane's grants from the first-th on, in the order in which they were given.
func (lane *Lane) Grants(first uint64) ([]Grant, error) {
	count, err := number(func(count *C.uint64_t) C.uint32_t { return C.renamer_grant_count(&lane.handle, count) })
	if err != nil || first >= count {
		return nil, err
	}
	grants := make([]Grant, count-first)
	to := (*C.renamer_grant)(unsafe.Pointer(&grants[0]))
	return grants, done(C.renamer_grants(&lane.handle, C.uint64_t(first), to, C.size_t(len(grants))))
}

// HandBack hands the lane back to its floor, which frees it, or is refused if clients are inside.
func (lane *Lane) HandBack() error { return done(C.renamer_hand_back(&lane.handle)) }

// Join takes in one lane that was handed back.
func (lane *Lane) Join() error { return done(C.renamer_join(&lane.handle)) }

// TakeBack takes a lane of the floor that was handed back, whole. Its own lane is only asked, so goroutines may share it.
func (lane *Lane) TakeBack() (*Lane, error) {
	back := newLane()
	err := done(C.renamer_take_back(&lane.handle, &back.handle))
	return back, err
}

// JoinAll takes in all lanes that were handed back.
func (lane *Lane) JoinAll() error { return done(C.renamer_join_all(&lane.handle)) }

// Close closes the floor, which frees the lane.
func (lane *Lane) Close() (*Quiet, error) {
	quiet := newQuiet()
	err := done(C.renamer_close(&lane.handle, &quiet.handle))
	return quiet, err
}

// Free hands the lane back, if it is not freed yet.
func (lane *Lane) Free() { C.renamer_free(&lane.handle) }
