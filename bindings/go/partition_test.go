package squall_test

import (
	"testing"

	squall "sumelgos.example/squall/bindings/go"
)

// partitionOf is a partition of course 1 over the example plans, which is closed when the test ends.
func partitionOf(t testing.TB, id squall.Part) *squall.Partition {
	t.Helper()
	partition, err := squall.OpenPartition(id, courseOf(t, 1, oldPlan, newPlan))
	succeeds(t, err)
	t.Cleanup(func() { partition.Close() })
	return partition
}

// opened is such a partition that has heard that sub-plan 0 is opened.
func opened(t testing.TB, id squall.Part) *squall.Partition {
	t.Helper()
	partition := partitionOf(t, id)
	succeeds(t, partition.Hear(unhex(openingFrame)))
	return partition
}

// chunkOf is a chunk of the move from 1 to 3.
func chunkOf(lo, hi squall.Rank) squall.Chunk {
	return squall.Chunk{Lo: lo, Hi: hi, Number: 1, Sub: 0, Source: 1, Dest: 3}
}

func span(lo, hi squall.Rank) squall.Span {
	return squall.Span{Lo: lo, Hi: hi}
}

var two, three = squall.Key(2, 0), squall.Key(3, 0)

func TestOpeningsOfPartitions(t *testing.T) {
	equals(t, partitionOf(t, 1).Held(), []squall.Span{span(0, three)})
	equals(t, partitionOf(t, 4).Held(), []squall.Span{span(squall.Key(9, 0), squall.End)})
	equals(t, partitionOf(t, 9999).Held(), []squall.Span(nil))
	course := courseOf(t, 1, oldPlan, newPlan)
	none, err := squall.OpenPartition(10000, course)
	equals(t, []any{none, err}, []any{(*squall.Partition)(nil), squall.ErrLimit})
	course.Close()
	for _, course := range []*squall.Course{course, nil, new(squall.Course)} {
		none, err := squall.OpenPartition(1, course)
		equals(t, []any{none, err}, []any{(*squall.Partition)(nil), squall.ErrClosed})
	}
}

func gives(t *testing.T, partition *squall.Partition, max uint64, wanted squall.Chunk) {
	t.Helper()
	chunk, err := partition.Give(max)
	succeeds(t, err)
	equals(t, chunk, wanted)
}

// givesNone checks that the partition gives neither keys nor the key.
func givesNone(t *testing.T, partition *squall.Partition, max uint64, err error, key squall.Rank, errAt error) {
	t.Helper()
	chunk, got := partition.Give(max)
	equals(t, []any{chunk, got}, []any{squall.Chunk{}, err})
	chunk, got = partition.GiveAt(key)
	equals(t, []any{chunk, got}, []any{squall.Chunk{}, errAt})
}

func TestGifts(t *testing.T) {
	partition := partitionOf(t, 1)
	givesNone(t, partition, 1, squall.ErrNotOpen, two, squall.ErrNotOpen)
	succeeds(t, partition.Hear(unhex(openingFrame)))
	givesNone(t, partition, 0, squall.ErrZeroMax, 0, squall.ErrNotOutgoing)
	givesNone(t, partition, 0, squall.ErrZeroMax, squall.End, squall.ErrLimit)
	chunk, err := partition.GiveAt(two + 1)
	succeeds(t, err)
	equals(t, chunk, chunkOf(two+1, two+2))
	gives(t, partition, 9, chunkOf(two, two+1))
	gives(t, partition, 3, chunkOf(two+2, two+5))
	equals(t, partition.Held(), []squall.Span{span(0, two), span(two+5, three)})
	gives(t, partition, 1<<64-1, chunkOf(two+5, three))
	givesNone(t, partition, 1, squall.ErrNothingLeft, two+1, squall.ErrGiven)
	equals(t, partition.Held(), []squall.Span{span(0, two)})
	equals(t, partition.Given(1), []squall.Span{span(two, three)})
	equals(t, len(partition.Given(2))+len(partition.Loaded(1)), 0)
}

// Partition 3 is to give keys in course 2 that it has not loaded in course 1.
func TestKeysThatAreNotHeld(t *testing.T) {
	next := courseOf(t, 2, newPlan, allAtFive)
	partition := opened(t, 3)
	frame, err := next.Frame()
	succeeds(t, err)
	succeeds(t, partition.Hear(frame))
	for _, move := range next.Moves() {
		if move.Source == 3 {
			frame, err = squall.FrameOpened(2, move.Sub)
			succeeds(t, err)
		}
	}
	succeeds(t, partition.Hear(frame))
	_, err = partition.GiveAt(two)
	equals(t, err, squall.ErrNotHeld)
	chunk, err := partition.GiveAt(squall.Key(5, 0))
	succeeds(t, err)
	equals(t, []any{chunk.Number, chunk.Source, chunk.Dest}, []any{uint32(2), squall.Part(3), squall.Part(5)})
}

// closes checks that the newest course of the partition has that number and is closed, and no later one.
func closes(t *testing.T, partition *squall.Partition, number uint32) {
	t.Helper()
	equals(t, partition.CloseCourse(), number)
	equals(t, partition.CourseClosed(number), true)
	equals(t, partition.CourseClosed(number+1), false)
}

// Once the course is closed nothing is given in it, and what comes in is loaded as before.
func TestAPartitionThatGivesNoMore(t *testing.T) {
	partition, six := opened(t, 3), squall.Key(6, 0)
	_, err := partition.GiveAt(six)
	succeeds(t, err)
	equals(t, partition.CourseClosed(1), false)
	for i := 0; i < 2; i++ {
		closes(t, partition, 1)
		givesNone(t, partition, 1, squall.ErrEnded, six+1, squall.ErrEnded)
		givesNone(t, partition, 0, squall.ErrEnded, six, squall.ErrEnded)
		givesNone(t, partition, 0, squall.ErrEnded, 0, squall.ErrEnded)
		givesNone(t, partition, 0, squall.ErrEnded, squall.End, squall.ErrLimit)
	}
	equals(t, partition.CourseClosed(0), false)
	loads(t, partition, chunkOf(two, three), true)
	succeeds(t, partition.Finish(0))
	equals(t, partition.Given(1), []squall.Span{span(six, six+1)})
	equals(t, partition.Held(), []squall.Span{
		span(two, three), span(squall.Key(5, 0), six), span(six+1, squall.Key(9, 0)),
	})
}

// A course is closed before its sub-plan is opened. In a newer one the partition gives again.
func TestACourseThatEndsBeforeItOpens(t *testing.T) {
	partition, next := partitionOf(t, 3), courseOf(t, 2, newPlan, oldPlan)
	closes(t, partition, 1)
	givesNone(t, partition, 1, squall.ErrEnded, two, squall.ErrEnded)
	loadsNot(t, partition, chunkOf(two, three), squall.ErrNotOpen)
	succeeds(t, partition.Hear(unhex(openingFrame)))
	givesNone(t, partition, 1, squall.ErrEnded, two, squall.ErrEnded)
	loads(t, partition, chunkOf(two, three), true)
	frame, err := next.Frame()
	succeeds(t, err)
	succeeds(t, partition.Hear(frame))
	frame, err = squall.FrameOpened(2, 0)
	succeeds(t, err)
	succeeds(t, partition.Hear(frame))
	equals(t, []bool{partition.CourseClosed(1), partition.CourseClosed(2)}, []bool{true, false})
	gives(t, partition, 1, squall.Chunk{Lo: two, Hi: two + 1, Number: 2, Source: 3, Dest: 1})
	closes(t, partition, 2)
	givesNone(t, partition, 1, squall.ErrEnded, two, squall.ErrEnded)
	equals(t, partition.CourseClosed(1), true)
}

// loads checks whether some key of the chunk was loaded now.
func loads(t *testing.T, partition *squall.Partition, chunk squall.Chunk, wanted bool) {
	t.Helper()
	isNew, err := partition.Load(chunk)
	succeeds(t, err)
	equals(t, isNew, wanted)
}

func loadsNot(t *testing.T, partition *squall.Partition, chunk squall.Chunk, wanted error) {
	t.Helper()
	isNew, err := partition.Load(chunk)
	equals(t, []any{isNew, err}, []any{false, wanted})
}

// brings checks which keys of the chunk are new.
func brings(t *testing.T, partition *squall.Partition, chunk squall.Chunk, wanted ...squall.Span) {
	t.Helper()
	spans, err := partition.Fresh(chunk)
	succeeds(t, err)
	equals(t, spans, wanted)
}

func TestLoads(t *testing.T) {
	partition, whole := partitionOf(t, 3), chunkOf(two, three)
	_, err := partition.Fresh(whole)
	equals(t, err, squall.ErrNotOpen)
	loadsNot(t, partition, whole, squall.ErrNotOpen)
	equals(t, partition.Finish(0), squall.ErrNotOpen)
	succeeds(t, partition.Hear(unhex(openingFrame)))
	equals(t, partition.Finish(0), squall.ErrNotAll)
	equals(t, partition.Finish(1<<32-1), squall.ErrNotOpen)
	loadsNot(t, partition, chunkOf(two, three+1), squall.ErrStranger)
	loadsNot(t, partition, squall.Chunk{Lo: two, Hi: three, Number: 7, Source: 1, Dest: 3}, squall.ErrStranger)
	for _, none := range []squall.Chunk{
		{}, chunkOf(two, two), chunkOf(two, squall.End+1), {Lo: two, Hi: three, Source: 1, Dest: 3},
		{Lo: two, Hi: three, Number: 1, Sub: 10000, Source: 1, Dest: 3},
		{Lo: two, Hi: three, Number: 1, Source: 1, Dest: 10000},
	} {
		loadsNot(t, partition, none, squall.ErrLimit)
	}
	loads(t, partition, chunkOf(two+5, two+7), true)
	loads(t, partition, chunkOf(two+5, two+7), false)
	brings(t, partition, whole, span(two, two+5), span(two+7, three))
	loads(t, partition, whole, true)
	brings(t, partition, whole)
	loads(t, partition, whole, false)
	succeeds(t, partition.Finish(0))
	succeeds(t, partition.Finish(0))
	equals(t, partition.Held(), []squall.Span{span(two, three), span(squall.Key(5, 0), squall.Key(9, 0))})
	equals(t, partition.Loaded(1), []squall.Span{span(two, three)})
	equals(t, len(partition.Loaded(2)), 0)
	equals(t, opened(t, 2).Finish(0), squall.ErrNothingDue)
}

// More spans than one call of the library gives, and a whole number of such calls.
func TestAnyNumberOfSpans(t *testing.T) {
	for _, count := range []int{1, 63, 64, 65, 128, 200} {
		partition := opened(t, 3)
		var spans []squall.Span
		for n := 0; n < count; n++ {
			lo := two + squall.Rank(2*n)
			loads(t, partition, chunkOf(lo, lo+1), true)
			spans = append(spans, span(lo, lo+1))
		}
		equals(t, partition.Loaded(1), spans)
		equals(t, partition.Held(), append(spans, span(squall.Key(5, 0), squall.Key(9, 0))))
	}
}

func serves(t *testing.T, partition *squall.Partition, key squall.Rank, after uint32, wanted squall.Reply) {
	t.Helper()
	reply, err := partition.Serve(key, after)
	succeeds(t, err)
	equals(t, reply, wanted)
}

// An errand follows the replies of partitions to a key that moves.
func TestRepliesForErrands(t *testing.T) {
	source, dest, errand := opened(t, 1), opened(t, 3), errandOf(t, fresh(t), two)
	heeds := func(partition *squall.Partition, wanted squall.Next) {
		t.Helper()
		reply, err := partition.Serve(two, errand.Number())
		succeeds(t, err)
		next, err := errand.Heed(reply)
		succeeds(t, err)
		equals(t, next, wanted)
	}
	chunk, err := source.Give(1 << 40)
	succeeds(t, err)
	serves(t, source, two, 0, squall.Reply{Kind: squall.ReplyMoved, Part: 3, Number: 1})
	heeds(source, squall.NextAsk)
	equals(t, errand.Asked(), squall.Part(3))
	serves(t, dest, two, 1, squall.Reply{Kind: squall.ReplyPending, Part: 1})
	heeds(dest, squall.NextAgain)
	loads(t, dest, chunk, true)
	serves(t, dest, two, 1, squall.Reply{Kind: squall.ReplyHeld})
	heeds(dest, squall.NextServed)
	serves(t, source, squall.Key(9, 0), 0, squall.Reply{Kind: squall.ReplyElsewhere, Part: 4})
	serves(t, source, two, 7, squall.Reply{Kind: squall.ReplyBehind})
	reply, err := source.Serve(squall.End, 0)
	equals(t, []any{reply, err}, []any{squall.Reply{}, squall.ErrLimit})
}

// What one partition reports reaches another one, and a router, in frames.
func TestFramesOfPartitions(t *testing.T) {
	one, other, router := opened(t, 3), partitionOf(t, 1), fresh(t)
	_, err := one.Repair()
	equals(t, err, squall.ErrNoDigest)
	loads(t, one, chunkOf(two, three), true)
	digest, err := other.Digest()
	succeeds(t, err)
	succeeds(t, one.Hear(digest))
	repair, err := one.Repair()
	succeeds(t, err)
	board, err := one.Board()
	succeeds(t, err)
	equals(t, repair, board)
	for _, frame := range repair {
		succeeds(t, router.Hear(frame))
		succeeds(t, other.Hear(frame))
		equals(t, other.Hear(frame[1:]), squall.FrameMagic)
		equals(t, other.Hear(frame[:len(frame)-1]), squall.FrameShort)
	}
	routes(t, router, two, 3)
	gives(t, other, 1, chunkOf(two, two+1))
}

// A stream for a partition is cut anywhere, and a fault ends it.
func TestAStreamForAPartition(t *testing.T) {
	opening := unhex(openingFrame)
	for cut := range opening {
		partition := partitionOf(t, 1)
		succeeds(t, partition.Feed(opening[:cut]))
		givesNone(t, partition, 1, squall.ErrNotOpen, two, squall.ErrNotOpen)
		succeeds(t, partition.Hear(unhex(loadFrame)))
		succeeds(t, partition.Feed(opening[cut:]))
		gives(t, partition, 1, chunkOf(two, two+1))
		equals(t, partition.Feed([]byte("no")), squall.FrameMagic)
		equals(t, partition.Feed(opening), squall.ErrFailed)
		succeeds(t, partition.Hear(opening))
		succeeds(t, partition.Close())
	}
}

func TestAPartitionThatIsClosed(t *testing.T) {
	closed := opened(t, 1)
	succeeds(t, closed.Close())
	succeeds(t, closed.Close())
	for _, partition := range []*squall.Partition{closed, nil, new(squall.Partition)} {
		_, servedErr := partition.Serve(two, 0)
		_, boardErr := partition.Board()
		_, digestErr := partition.Digest()
		_, repairErr := partition.Repair()
		for _, err := range []error{
			partition.Feed(unhex(openingFrame)), partition.Hear(unhex(openingFrame)), partition.Finish(0),
			servedErr, boardErr, digestErr, repairErr,
		} {
			equals(t, err, squall.ErrClosed)
		}
		givesNone(t, partition, 1, squall.ErrClosed, two, squall.ErrClosed)
		loadsNot(t, partition, chunkOf(two, three), squall.ErrClosed)
		equals(t, len(partition.Held())+len(partition.Given(1))+len(partition.Loaded(1)), 0)
		equals(t, []any{partition.CloseCourse(), partition.CourseClosed(1)}, []any{uint32(0), false})
		succeeds(t, partition.Close())
	}
}

// Goroutines that give, load and reply at once, until one of them closes the partition that gives.
func TestPartitionsOfManyGoroutines(t *testing.T) {
	source, dest := opened(t, 1), opened(t, 3)
	together(readers, func(i int) {
		for n := 0; n < 50; n++ {
			chunk, err := source.Give(3)
			if err == nil {
				if isNew, err := dest.Load(chunk); err != nil || !isNew {
					t.Errorf("%v: %v, %v", chunk, isNew, err)
				}
			} else if err != squall.ErrClosed {
				t.Error(err)
			}
			if reply, err := dest.Serve(chunk.Lo, 1); err != nil || chunk.Lo != 0 && reply.Kind != squall.ReplyHeld {
				t.Error(reply, err)
			}
			if i == 0 && n == 40 {
				source.Close()
			}
		}
	})
	loaded := dest.Loaded(1)
	equals(t, len(loaded), 1)
	equals(t, loaded[0].Lo, two)
}
