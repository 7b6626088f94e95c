// Workers that come and go, four at once, and fill the rows of one table by name, by the package renamer.
//
//	CGO_CFLAGS=-IINCLUDE CGO_LDFLAGS=-LFOLDER go run renamer/workers
//
// INCLUDE has renamer.h and FOLDER librenamer.so; leave them out if they stand where the system looks. No two workers get
// the same row, and the rows that are filled are the first ones. There is no lock round a name, no list of workers, and no
// end of names: a worker takes a free taker from a channel, and puts it back for the next one.
package main

import (
	"fmt"
	"os"
	"sync"

	"renamer"
)

const (
	places   = 4
	workers  = 64
	alone    = 36
	together = 64
	each     = alone + together
)

// fill has a worker fill some rows one by one, and some together.
func fill(taker *renamer.Taker, rows []int) error {
	for i := 0; i < alone; i++ {
		row, err := taker.Take(0)
		if err != nil {
			return err
		}
		rows[row]++
	}
	list := make([]uint64, together)
	if err := taker.TakeMany(0, list); err != nil {
		return err
	}
	for _, row := range list {
		rows[row]++
	}
	return nil
}

// run starts the workers, as many at once as there are takers.
func run(rows []int) error {
	first, err := renamer.OpenTakes(renamer.Tree, 8)
	if err != nil {
		return err
	}
	free := make(chan *renamer.Taker, places)
	free <- first
	for i := 1; i < places; i++ {
		other, err := first.Split()
		if err != nil {
			return err
		}
		free <- other
	}
	var running sync.WaitGroup
	errs := make([]error, workers)
	for i := 0; i < workers; i++ {
		running.Add(1)
		go func(taker *renamer.Taker, i int) {
			defer running.Done()
			errs[i] = fill(taker, rows)
			free <- taker
		}(<-free, i)
	}
	running.Wait()
	for i := 0; i < places; i++ {
		(<-free).Free()
	}
	for _, err := range errs {
		if err != nil {
			return err
		}
	}
	return nil
}

func main() {
	rows := make([]int, workers*each)
	err := run(rows)
	for row, filled := range rows {
		if err == nil && filled != 1 {
			err = fmt.Errorf("row %d was filled %d times", row, filled)
		}
	}
	if err != nil {
		fmt.Fprintln(os.Stderr, "workers:", err)
		os.Exit(1)
	}
	fmt.Printf("%d workers filled the rows 0 to %d, each once\n", workers, len(rows)-1)
}
