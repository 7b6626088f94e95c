package renamer

// Slots are the numbers 0 to n-1, of which each has one owner at most. Goroutines take them at once, and nobody waits.
type Slots struct{ first *Lane }

// Slot is a number that is taken. It may outlive its pool. One that is dropped is given back at some collection.
type Slot struct {
	lane *Lane
	// Number is below that of the slots.
	Number int
}

// OpenSlots makes so many slots, at most 262,144, which are free.
func OpenSlots(count uint64) (*Slots, error) {
	first, err := Open(Tree, 2, count)
	for slot := uint64(0); err == nil && slot < count; slot++ {
		var lane *Lane
		if lane, err = first.Split(1); err == nil {
			_, err = lane.Name(slot, 0)
		}
		lane.Free()
	}
	if err != nil {
		first.Free()
		return nil, err
	}
	return &Slots{first}, nil
}

// Take takes a slot, whichever is free, or is refused with NothingBack if at one moment of the call none was.
func (slots *Slots) Take() (*Slot, error) {
	lane, err := slots.first.TakeBack()
	if err != nil {
		return nil, err
	}
	grants, err := lane.Grants(0)
	if err != nil {
		return nil, err
	}
	return &Slot{lane, int(grants[0].Name)}, nil
}

// Close gives the slot back, or returns None if it was given back already.
func (slot *Slot) Close() error { return slot.lane.HandBack() }
