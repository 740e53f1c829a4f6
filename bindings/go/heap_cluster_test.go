//go:build squall_heap

package squall

import (
	"reflect"
	"testing"
)

// closer is a router, a partition or a leader.
type closer interface {
	Close() error
	Hear(frame []byte) error
	Board() (Frames, error)
}

// refuseEachOf makes a call with each of its allocations refused in turn, of what `open` gives. It then returns
// ErrNoMemory, what `see` sees is as before, and the same call succeeds; or it did without.
func refuseEachOf[T closer](t *testing.T, open func() T, see func(T) any, call func(T) error) {
	t.Helper()
	answered := 0
	for number, more := 1, true; more; number++ {
		it := open()
		before := see(it)
		refuse(number)
		err := call(it)
		more = asked() >= number
		refuse(0)
		if err != nil && (err != ErrNoMemory || !more) {
			t.Fatal(err)
		}
		if err != nil {
			answered++
			if after := see(it); !reflect.DeepEqual(before, after) {
				t.Errorf("allocation %d: %v became %v", number, before, after)
			}
			succeed(t, call(it))
		}
		it.Close()
	}
	if answered == 0 {
		t.Error("no allocation was refused")
	}
}

func hear(t *testing.T, it closer, frame []byte, err error) {
	t.Helper()
	succeed(t, err)
	succeed(t, it.Hear(frame))
}

func boardOf(t *testing.T, it closer) Frames {
	t.Helper()
	board, err := it.Board()
	succeed(t, err)
	return board
}

const emptyDigestFrame = "53510102000000080000000000000000"

// busyPartition is partition 3 of course 2, which has loaded some keys and heard a digest.
func busyPartition(t *testing.T) *Partition {
	t.Helper()
	course := exampleCourse(t)
	defer course.Close()
	partition, err := OpenPartition(3, course)
	succeed(t, err)
	frame, err := FrameOpened(2, 0)
	hear(t, partition, frame, err)
	hear(t, partition, bytesOfHex(t, emptyDigestFrame), nil)
	_, err = partition.Load(Chunk{Key(2, 0), Key(2, 9), 2, 0, 1, 3})
	succeed(t, err)
	return partition
}

// wholePartition is the same with all keys that come in.
func wholePartition(t *testing.T) *Partition {
	partition := busyPartition(t)
	_, err := partition.Load(Chunk{Key(2, 0), Key(3, 0), 2, 0, 1, 3})
	succeed(t, err)
	return partition
}

func TestPartitionsWithoutMemory(t *testing.T) {
	frame := bytesOfHex(t, frameOfALoad)
	for name, it := range map[string]struct {
		open func(*testing.T) *Partition
		call func(*Partition) error
	}{
		"Feed":   {busyPartition, func(p *Partition) error { return p.Feed(frame) }},
		"Hear":   {busyPartition, func(p *Partition) error { return p.Hear(frame) }},
		"Give":   {busyPartition, func(p *Partition) error { _, err := p.Give(2); return err }},
		"GiveAt": {busyPartition, func(p *Partition) error { _, err := p.GiveAt(Key(6, 2)); return err }},
		"Load": {busyPartition, func(p *Partition) error {
			_, err := p.Load(Chunk{Key(2, 11), Key(3, 0), 2, 0, 1, 3})
			return err
		}},
		"Finish": {wholePartition, func(p *Partition) error { return p.Finish(0) }},
		"Board":  {busyPartition, func(p *Partition) error { _, err := p.Board(); return err }},
		"Digest": {busyPartition, func(p *Partition) error { _, err := p.Digest(); return err }},
		"Repair": {busyPartition, func(p *Partition) error { _, err := p.Repair(); return err }},
	} {
		t.Run(name, func(t *testing.T) {
			see := func(p *Partition) any { return []any{p.Held(), p.Given(2), p.Loaded(2), boardOf(t, p)} }
			refuseEachOf(t, func() *Partition { return it.open(t) }, see, it.call)
		})
	}
}

// idleLeader is a leader that has begun nothing, and has heard a report and a digest.
func idleLeader(t *testing.T) *Leader {
	t.Helper()
	leader, err := OpenLeader(file(t, "old.json"), 1)
	succeed(t, err)
	hear(t, leader, bytesOfHex(t, frameOfALoad), nil)
	hear(t, leader, bytesOfHex(t, emptyDigestFrame), nil)
	return leader
}

// busyLeader is the same in course 2.
func busyLeader(t *testing.T) *Leader {
	leader := idleLeader(t)
	succeed(t, leader.Begin(file(t, "new.json")))
	return leader
}

func TestLeadersWithoutMemory(t *testing.T) {
	frame, err := FrameDone(2, 0, 3)
	succeed(t, err)
	plan := file(t, "new.json")
	for name, it := range map[string]struct {
		open func(*testing.T) *Leader
		call func(*Leader) error
	}{
		"Feed":      {busyLeader, func(l *Leader) error { return l.Feed(frame) }},
		"Hear":      {busyLeader, func(l *Leader) error { return l.Hear(frame) }},
		"Begin":     {idleLeader, func(l *Leader) error { return l.Begin(plan) }},
		"BeginFrom": {busyLeader, func(l *Leader) error { return l.BeginFrom(plan, plan) }},
		"OpenNext":  {busyLeader, func(l *Leader) error { _, err := l.OpenNext(); return err }},
		"Board":     {busyLeader, func(l *Leader) error { _, err := l.Board(); return err }},
		"Digest":    {busyLeader, func(l *Leader) error { _, err := l.Digest(); return err }},
		"Repair":    {busyLeader, func(l *Leader) error { _, err := l.Repair(); return err }},
	} {
		t.Run(name, func(t *testing.T) {
			see := func(l *Leader) any {
				course, err := l.Course()
				defer course.Close()
				return []any{course.Moves(), err, l.Finished(), boardOf(t, l)}
			}
			refuseEachOf(t, func() *Leader { return it.open(t) }, see, it.call)
		})
	}
}

// What a router says of itself. The library may try a second time, for less.
func TestWhatARouterSaysWithoutMemory(t *testing.T) {
	router := busy(t)
	defer router.Close()
	succeed(t, router.Issued(2, file(t, "old.json")))
	succeed(t, router.Issued(2, file(t, "new.json")))
	refuseIn(t, router.Clashed)
	refuseIn(t, router.Counts)
	refuseIn(t, router.StatusText)
	refuseIn(t, router.Picture)
	refuse(-1)
	_, clashedErr := router.Clashed()
	_, countsErr := router.Counts()
	_, textErr := router.StatusText()
	_, pictureErr := router.Picture()
	refuse(0)
	for i, err := range []error{clashedErr, countsErr, textErr, pictureErr} {
		if err != ErrNoMemory {
			t.Errorf("call %d: %v", i, err)
		}
	}
}

// Each opening that is refused leaves no block. In the end it succeeds.
func TestOpeningsOfPartitionsAndLeadersWithoutMemory(t *testing.T) {
	course, plan := exampleCourse(t), file(t, "old.json")
	defer course.Close()
	for name, open := range map[string]func() (bool, error){
		"OpenPartition": func() (bool, error) {
			it, err := OpenPartition(3, course)
			return it != nil, orClosed(err, it.Close())
		},
		"OpenLeader":   func() (bool, error) { it, err := OpenLeader(plan, 0); return it != nil, orClosed(err, it.Close()) },
		"ResumeLeader": func() (bool, error) { it, err := ResumeLeader(course); return it != nil, orClosed(err, it.Close()) },
	} {
		t.Run(name, func(t *testing.T) {
			if refuseIn(t, open) == 0 {
				t.Error("no allocation was refused")
			}
		})
	}
}

// orClosed is the error of an opening, or else that of the close after it.
func orClosed(opened, closed error) error {
	if opened != nil {
		return opened
	}
	return closed
}

// What the documentation of the library says of partitions, leaders and views.
func TestCallsOfPartitionsAndLeadersThatAllocateNothing(t *testing.T) {
	partition, leader, router := wholePartition(t), busyLeader(t), busy(t)
	view, err := router.View()
	succeed(t, err)
	clone, err := view.Clone()
	succeed(t, err)
	refuse(0)
	_, err = partition.Serve(7, 0)
	succeed(t, err)
	course, err := leader.Course()
	succeed(t, err)
	spans, err := view.Changes(clone, 0, End)
	succeed(t, err)
	if asked() != 0 || len(spans) != 0 || len(partition.Held()) != 2 || len(partition.Loaded(2)) != 1 ||
		partition.Given(2) != nil || leader.Finished() || partition.CloseCourse() != 2 || !partition.CourseClosed(2) ||
		asked() != 0 {
		t.Errorf("%d allocations: %v", asked(), spans)
	}
	for _, it := range []interface{ Close() error }{partition, leader, router, view, clone, course} {
		succeed(t, it.Close())
	}
}

// openedRoles opens partitions and leaders, and closes them if isClosed. It says how many. Beside them it tries
// to open some that fail.
func openedRoles(t *testing.T, isClosed bool) int {
	const count = 2000
	course, plan := exampleCourse(t), file(t, "old.json")
	defer course.Close()
	for n := 0; n < count; n++ {
		partition, err := OpenPartition(3, course)
		succeed(t, err)
		leader, err := OpenLeader(plan, 0)
		succeed(t, err)
		resumed, err := ResumeLeader(course)
		succeed(t, err)
		_, partitionErr := OpenPartition(10000, course)
		_, leaderErr := OpenLeader(nil, 0)
		if partitionErr != ErrLimit || StatusOf(leaderErr) != uint32(PlanJSON) {
			t.Fatal(partitionErr, leaderErr)
		}
		if isClosed {
			partition.Close()
			leader.Close()
			resumed.Close()
		}
	}
	return count
}

// Rooms and blocks of partitions and leaders are freed by Close, or else by finalizers.
func TestRoomsOfPartitionsAndLeaders(t *testing.T) {
	freesRooms(t, openedRoles)
}
