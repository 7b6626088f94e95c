// Package renamer gives clients, which goroutines name at once and without a lock, the names 0 to k-1, each once.
//
// It calls the proved library librenamer.so.1 by cgo. A Lane is a goroutine's own part of a floor, by which it names
// clients; renamer.h says what each call does. Calls on different lanes may run at once, and calls on one lane may not
// overlap, but for those that only ask: Lowest, Entered, Quota, Inside, Entries, Exits, Grants and TakeBack. A lane, a
// taker or a closed floor that is not used any more is freed by Free, or by a call that says so. One that is dropped is
// freed at some collection, until when a lane keeps its quota. Numbers that come back are Slots.
package renamer

// #cgo LDFLAGS: -lrenamer
// #include <renamer.h>
import "C"

import "unsafe"

// Kind is a network.
type Kind uint32

// The networks. A tree has one entry, the others as many as their width.
const (
	Bitonic  Kind = C.RENAMER_BITONIC
	Periodic Kind = C.RENAMER_PERIODIC
	Tree     Kind = C.RENAMER_TREE
)

// Refused is why a call was refused: each error of this package is one.
type Refused uint32

// Why calls are refused.
const (
	None          Refused = C.RENAMER_NONE
	Memory        Refused = C.RENAMER_MEMORY
	NoSuchKind    Refused = C.RENAMER_KIND
	NoSuchWidth   Refused = C.RENAMER_WIDTH
	QuotaTooLarge Refused = C.RENAMER_QUOTA
	NoSuchEntry   Refused = C.RENAMER_NO_SUCH_ENTRY
	QuotaSpent    Refused = C.RENAMER_QUOTA_SPENT
	QuotaTooSmall Refused = C.RENAMER_QUOTA_TOO_SMALL
	StillWalking  Refused = C.RENAMER_STILL_WALKING
	NobodyThere   Refused = C.RENAMER_NOBODY_THERE
	LanesMissing  Refused = C.RENAMER_LANES_MISSING
	NothingBack   Refused = C.RENAMER_NOTHING_BACK
	WrongSize     Refused = C.RENAMER_SIZE
	Carried       Refused = C.RENAMER_CARRIED
	LanesThere    Refused = C.RENAMER_LANES_THERE
)

// Error returns a sentence that says why, and what is allowed.
func (status Refused) Error() string {
	return C.GoString(C.renamer_explain(C.uint32_t(status)))
}

func done(status C.uint32_t) error {
	if status != C.RENAMER_DONE {
		return Refused(status)
	}
	return nil
}

// Client is a client that is to come in, and by which entry.
type Client struct{ Client, Entry uint64 }

// Grant is a client that got its name. It left by the exit, and Visit clients had left by that exit before.
type Grant struct{ Client, Exit, Visit, Name uint64 }

// Moved is where a client went by one step, as renamer.h says at renamer_moved. HasLeft is 0 or 1.
type Moved struct{ Client, HasLeft, Place, Number, Next uint64 }

// Swept is where the clients of a wire went by one sweep, as renamer.h says at renamer_swept. HaveLeft is 0 or 1.
type Swept struct{ HaveLeft, Place, First, Clients uint64 }

// None of these compiles if a type of C has another size.
var (
	_ = [1]int{}[unsafe.Sizeof(Client{})-C.sizeof_renamer_client]
	_ = [1]int{}[unsafe.Sizeof(Grant{})-C.sizeof_renamer_grant]
	_ = [1]int{}[unsafe.Sizeof(Moved{})-C.sizeof_renamer_moved]
	_ = [1]int{}[unsafe.Sizeof(Swept{})-C.sizeof_renamer_swept]
)

// Version returns the version of the library: major * 1000000 + minor * 1000 + patch.
func Version() uint32 { return uint32(C.renamer_version()) }

// number asks a call for a number.
func number(call func(*C.uint64_t) C.uint32_t) (uint64, error) {
	var found C.uint64_t
	err := done(call(&found))
	return uint64(found), err
}
