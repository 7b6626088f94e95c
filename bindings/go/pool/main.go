// A pool of goroutines that name clients at once, by the package renamer.
//
//	CGO_CFLAGS=-IINCLUDE CGO_LDFLAGS=-LFOLDER go run renamer/pool
//
// INCLUDE has renamer.h and FOLDER librenamer.so; leave them out if they stand where the system looks. Sixteen goroutines
// name 100 clients each. The line that is printed says which names they have.
package main

import (
	"fmt"
	"os"
	"sync"

	"renamer"
)

const (
	goroutines = 16
	each       = 100
)

// nameSome names clients from first on by a lane, and hands it back.
func nameSome(lane *renamer.Lane, first uint64) error {
	defer lane.Free()
	for client := first; client < first+each; client++ {
		if _, err := lane.Name(client, 0); err != nil {
			return err
		}
	}
	return nil
}

// nameAll has a goroutine with a lane of its own for each part of the clients.
func nameAll(rest *renamer.Lane) error {
	var running sync.WaitGroup
	defer running.Wait()
	errs := make(chan error, goroutines)
	for i := uint64(0); i < goroutines; i++ {
		lane, err := rest.Split(each)
		if err != nil {
			return err
		}
		running.Add(1)
		go func(first uint64) {
			defer running.Done()
			errs <- nameSome(lane, first)
		}(1000 * i)
	}
	for i := 0; i < goroutines; i++ {
		if err := <-errs; err != nil {
			return err
		}
	}
	return nil
}

// holders takes in the lanes that were handed back, closes the floor, and lists who has name 0, 1, and so on.
func holders(rest *renamer.Lane) ([]uint64, error) {
	if err := rest.JoinAll(); err != nil {
		return nil, err
	}
	quiet, err := rest.Close()
	if err != nil {
		return nil, err
	}
	defer quiet.Free()
	return quiet.Holders()
}

func run() error {
	rest, err := renamer.Open(renamer.Tree, 8, goroutines*each)
	if err != nil {
		return err
	}
	defer rest.Free()
	if err := nameAll(rest); err != nil {
		return err
	}
	found, err := holders(rest)
	if err != nil {
		return err
	}
	seen := map[uint64]bool{}
	for _, client := range found {
		seen[client] = client%1000 < each && client < 1000*goroutines
	}
	fmt.Printf("%d clients have the names 0 to %d\n", len(seen), len(found)-1)
	return nil
}

func main() {
	if err := run(); err != nil {
		fmt.Fprintln(os.Stderr, "pool:", err)
		os.Exit(1)
	}
}
