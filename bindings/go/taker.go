package renamer

// #include <renamer.h>
import "C"

import "runtime"

// Taker is a goroutine's own part of a floor whose names are only taken. Such a floor knows no clients and keeps no list,
// and it has 2^62 names. What a taker that is freed has not taken is nobody's then, so keep it for the next goroutine.
type Taker struct{ handle C.renamer_taker }

// newTaker makes one that has nothing yet. What it gets is freed by Free, or at some collection once it is dropped.
func newTaker() *Taker {
	taker := new(Taker)
	runtime.SetFinalizer(taker, (*Taker).Free)
	return taker
}

func openTakes(kind Kind, width uint32, apart C.uint32_t) (*Taker, error) {
	taker := newTaker()
	err := done(C.renamer_open_takes(&taker.handle, C.uint32_t(kind), C.uint32_t(width), apart))
	return taker, err
}

// OpenTakes opens a floor over a network of this width whose names are only taken, and returns its first taker.
func OpenTakes(kind Kind, width uint32) (*Taker, error) { return openTakes(kind, width, 0) }

// OpenTakesApart opens one whose words lie apart, for machines of many processors.
func OpenTakesApart(kind Kind, width uint32) (*Taker, error) { return openTakes(kind, width, 1) }

// Split splits off another taker: with 2^40 names if more than three quarters of the floor's 2^62 are left to this one,
// as to a first taker at its first million splits, and else with 2^20, or half of what is left.
func (taker *Taker) Split() (*Taker, error) {
	other := newTaker()
	err := done(C.renamer_split_taker(&taker.handle, &other.handle))
	return other, err
}

// Take takes a name, by an entry.
func (taker *Taker) Take(entry uint64) (uint64, error) {
	return number(func(name *C.uint64_t) C.uint32_t {
		return C.renamer_take(&taker.handle, C.uint64_t(entry), name)
	})
}

// TakeMany takes a name for each place of a list, and writes them there, in no order that is said.
func (taker *Taker) TakeMany(entry uint64, names []uint64) error {
	var to *C.uint64_t
	if len(names) > 0 {
		to = (*C.uint64_t)(&names[0])
	}
	return done(C.renamer_take_many(&taker.handle, C.uint64_t(entry), to, C.size_t(len(names))))
}

// Entered returns how many takes were begun by all takers, as far as this one can know.
func (taker *Taker) Entered() (uint64, error) {
	return number(func(entered *C.uint64_t) C.uint32_t { return C.renamer_takes_entered(&taker.handle, entered) })
}

// Free frees the taker, if it is not freed yet.
func (taker *Taker) Free() { C.renamer_free_taker(&taker.handle) }
