package renamer

// #include <renamer.h>
import "C"

import "runtime"

// Quiet is a floor that is closed: how many left by each exit, and who has which name.
type Quiet struct{ handle C.renamer_quiet }

// newQuiet makes one that has nothing yet. What it gets is freed by Free, or at some collection once it is dropped.
func newQuiet() *Quiet {
	quiet := new(Quiet)
	runtime.SetFinalizer(quiet, (*Quiet).Free)
	return quiet
}

// list copies a list of the closed floor.
func (quiet *Quiet) list(size func(*C.uint64_t) C.uint32_t, copied func(*C.uint64_t, C.size_t) C.uint32_t) ([]uint64, error) {
	length, err := number(size)
	if err != nil || length == 0 {
		return nil, err
	}
	found := make([]uint64, length)
	return found, done(copied((*C.uint64_t)(&found[0]), C.size_t(length)))
}

// Counts returns a list of which the i-th number is how many left by exit i.
func (quiet *Quiet) Counts() ([]uint64, error) {
	return quiet.list(
		func(exits *C.uint64_t) C.uint32_t { return C.renamer_quiet_exits(&quiet.handle, exits) },
		func(to *C.uint64_t, size C.size_t) C.uint32_t { return C.renamer_counts(&quiet.handle, to, size) })
}

// Holders returns a list of which the n-th number is the client with the name n.
func (quiet *Quiet) Holders() ([]uint64, error) {
	return quiet.list(
		func(clients *C.uint64_t) C.uint32_t { return C.renamer_quiet_clients(&quiet.handle, clients) },
		func(to *C.uint64_t, size C.size_t) C.uint32_t { return C.renamer_holders(&quiet.handle, to, size) })
}

// OpenAfter opens the next floor over the same network, which goes on with its counts.
func (quiet *Quiet) OpenAfter(quota uint64) (*Lane, error) {
	lane := newLane()
	err := done(C.renamer_open_after(&lane.handle, &quiet.handle, C.uint64_t(quota)))
	return lane, err
}

// Free frees the closed floor, if it is not freed yet.
func (quiet *Quiet) Free() { C.renamer_free_quiet(&quiet.handle) }
