package renamer

import (
	"runtime"
	"sync"
	"sync/atomic"
	"testing"
)

// collect runs collections until a call is no more refused, for a finalizer runs some time after one.
func collect(t *testing.T, call func() error) {
	t.Helper()
	for try := 0; call() != nil; try++ {
		if try == 1000 {
			t.Fatal(call())
		}
		runtime.GC()
		runtime.Gosched()
	}
}

func TestSlotsHaveOneOwnerAndComeBack(t *testing.T) {
	slots, err := OpenSlots(4)
	if err != nil {
		t.Fatal(err)
	}
	var owners [4]int32
	var group sync.WaitGroup
	for goroutine := 0; goroutine < 4; goroutine++ {
		group.Add(1)
		go func() {
			defer group.Done()
			for turn := 0; turn < 1000; turn++ {
				slot, err := slots.Take()
				if err != nil || !atomic.CompareAndSwapInt32(&owners[slot.Number], 0, 1) {
					t.Error("a slot had two owners, or none was free: ", err)
					return
				}
				atomic.StoreInt32(&owners[slot.Number], 0)
				if err := slot.Close(); err != nil || slot.Close() != None {
					t.Error(err)
				}
			}
		}()
	}
	group.Wait()
	var taken [4]*Slot
	for at := range taken {
		if taken[at], err = slots.Take(); err != nil {
			t.Fatal(err)
		}
	}
	if _, err = slots.Take(); err != NothingBack {
		t.Fatal(err)
	}
	runtime.KeepAlive(&taken)
	taken[2] = nil
	collect(t, func() error {
		taken[2], err = slots.Take()
		return err
	})
	if _, err = OpenSlots(1 << 20); err != QuotaTooLarge {
		t.Fatal(err)
	}
}

func TestWhatIsDroppedIsFreed(t *testing.T) {
	lane, err := Open(Tree, 2, 100)
	if err != nil {
		t.Fatal(err)
	}
	for at := 0; at < 100; at++ {
		if _, err := lane.Split(1); err != nil {
			t.Fatal(err)
		}
	}
	var quiet *Quiet
	collect(t, func() error {
		if err := lane.JoinAll(); err != nil {
			return err
		}
		quiet, err = lane.Close()
		return err
	})
	quiet.Free()
	quiet.Free()
}

// A pool of takers for each processor, of which a collection may drop any.
func TestTakersOfAPool(t *testing.T) {
	first, err := OpenTakes(Tree, 2)
	if err != nil {
		t.Fatal(err)
	}
	var lock sync.Mutex
	takers := sync.Pool{New: func() any {
		lock.Lock()
		defer lock.Unlock()
		taker, _ := first.Split()
		return taker
	}}
	const goroutines, each = 8, 500
	var seen [goroutines * each]int32
	var group sync.WaitGroup
	for goroutine := 0; goroutine < goroutines; goroutine++ {
		group.Add(1)
		go func() {
			defer group.Done()
			for turn := 0; turn < each; turn++ {
				taker := takers.Get().(*Taker)
				name, err := taker.Take(0)
				if err != nil || atomic.AddInt32(&seen[name], 1) != 1 {
					t.Error("a name was taken twice, or not: ", err)
				}
				takers.Put(taker)
			}
		}()
	}
	group.Wait()
	for name, times := range seen {
		if times != 1 {
			t.Fatal(name, times)
		}
	}
}
