package squall_test

import (
	"testing"

	squall "sumelgos.example/squall/bindings/go"
)

// Plans of two partitions: the keys of roots 2 to 4 move from 1 to 3, and those of 5 and 6 from 3 to 1.
var (
	halves = []byte(`{"plan":[{"part":1,"from":[0,0],"to":[5,0]},{"part":3,"from":[5,0],"to":"end"}]}`)
	mixed  = []byte(`{"plan":[{"part":1,"from":[0,0],"to":[2,0]},{"part":3,"from":[2,0],"to":[5,0]},
		{"part":1,"from":[5,0],"to":[7,0]},{"part":3,"from":[7,0],"to":"end"}]}`)
)

// cluster is a leader, two partitions and a router, which hear of each other by frames alone. Each partition
// has a list of its calls that returned no error.
type cluster struct {
	t      *testing.T
	course *squall.Course // with which all of them began
	leader *squall.Leader
	parts  map[squall.Part]*squall.Partition
	calls  map[squall.Part][]func(*squall.Partition) error
	router *squall.Router
}

func clusterOf(t *testing.T) *cluster {
	c := &cluster{
		t: t, course: courseOf(t, 1, halves, halves), parts: map[squall.Part]*squall.Partition{},
		calls: map[squall.Part][]func(*squall.Partition) error{},
	}
	var err error
	c.leader, err = squall.OpenLeader(halves, 1)
	succeeds(t, err)
	c.router, err = squall.OpenRouter(1, halves, halves)
	succeeds(t, err)
	t.Cleanup(func() { c.leader.Close(); c.router.Close() })
	for _, id := range []squall.Part{1, 3} {
		c.parts[id] = c.fresh(id)
	}
	return c
}

// fresh is a partition that has heard nothing.
func (c *cluster) fresh(id squall.Part) *squall.Partition {
	c.t.Helper()
	partition, err := squall.OpenPartition(id, c.course)
	succeeds(c.t, err)
	c.t.Cleanup(func() { partition.Close() })
	return partition
}

// do makes a call of a partition, and adds it to its list.
func (c *cluster) do(id squall.Part, call func(*squall.Partition) error) {
	c.t.Helper()
	succeeds(c.t, call(c.parts[id]))
	c.calls[id] = append(c.calls[id], call)
}

// send brings a frame to all.
func (c *cluster) send(frame []byte, err error) {
	c.t.Helper()
	succeeds(c.t, err)
	succeeds(c.t, c.leader.Hear(frame))
	succeeds(c.t, c.router.Hear(frame))
	for id := range c.parts {
		c.do(id, func(p *squall.Partition) error { return p.Hear(frame) })
	}
}

// sendBoard brings all that the leader knows to all.
func (c *cluster) sendBoard() {
	c.t.Helper()
	board, err := c.leader.Board()
	succeeds(c.t, err)
	for _, frame := range board {
		c.send(frame, nil)
	}
}

// move gives the next keys of a partition, and loads them where they go. It says whether there were any.
func (c *cluster) move(source squall.Part) bool {
	c.t.Helper()
	const most = 1<<32 + 1<<31
	chunk, err := c.parts[source].Give(most)
	if err == squall.ErrNothingLeft {
		return false
	}
	succeeds(c.t, err)
	c.calls[source] = append(c.calls[source], func(p *squall.Partition) error { _, err := p.Give(most); return err })
	c.finds(chunk.Lo)
	c.do(chunk.Dest, func(p *squall.Partition) error { _, err := p.Load(chunk); return err })
	loads(c.t, c.parts[chunk.Dest], chunk, false)
	c.finds(chunk.Lo)
	c.send(squall.FrameLoaded(chunk.Number, chunk.Sub, chunk.Dest, chunk.Lo, chunk.Hi))
	return true
}

// finds checks that the replies to an errand end with the key, or with the word to ask again later.
func (c *cluster) finds(key squall.Rank) {
	c.t.Helper()
	errand := errandOf(c.t, c.router, key)
	for steps := 0; steps < 3; steps++ {
		reply, err := c.parts[errand.Asked()].Serve(key, errand.Number())
		succeeds(c.t, err)
		next, err := errand.Heed(reply)
		succeeds(c.t, err)
		if next != squall.NextAsk {
			equals(c.t, next == squall.NextServed || next == squall.NextAgain, true)
			return
		}
	}
	c.t.Errorf("no reply ends the errand for %v", key)
}

// work works off the course to a plan.
func (c *cluster) work(plan []byte) {
	c.t.Helper()
	succeeds(c.t, c.leader.Begin(plan))
	c.sendBoard()
	for !c.leader.Finished() {
		sub, err := c.leader.OpenNext()
		succeeds(c.t, err)
		c.sendBoard()
		for c.move(1) || c.move(3) {
		}
		opensNext(c.t, c.leader, 0, &squall.NotDoneError{Part: 1, Sub: sub})
		for id := range c.parts {
			c.do(id, func(p *squall.Partition) error { return p.Finish(sub) })
			c.send(squall.FrameDone(c.router.Number(), sub, id))
		}
	}
	opensNext(c.t, c.leader, 0, squall.ErrNoMore)
}

// holds checks that all keys are at their partition in the new plan of the course, by router and partitions.
func (c *cluster) holds(number uint32) {
	c.t.Helper()
	course, err := c.leader.Course()
	succeeds(c.t, err)
	defer course.Close()
	equals(c.t, []uint32{course.Number(), c.router.Number()}, []uint32{number, number})
	equals(c.t, c.router.Legs(0, squall.End), course.NewPlan())
	held := map[squall.Part][]squall.Span{}
	for _, leg := range course.NewPlan() {
		held[leg.Part] = append(held[leg.Part], squall.Span{Lo: leg.Lo, Hi: leg.Hi})
		serves(c.t, c.parts[leg.Part], leg.Lo, 0, squall.Reply{Kind: squall.ReplyHeld})
	}
	for id, partition := range c.parts {
		equals(c.t, partition.Held(), held[id])
	}
}

// rebuilds checks that the calls of each partition lead to the same partition.
func (c *cluster) rebuilds() {
	c.t.Helper()
	for id, partition := range c.parts {
		again := c.fresh(id)
		for _, call := range c.calls[id] {
			succeeds(c.t, call(again))
		}
		equals(c.t, again.Held(), partition.Held())
		for number := uint32(1); number <= 3; number++ {
			equals(c.t, again.Given(number), partition.Given(number))
			equals(c.t, again.Loaded(number), partition.Loaded(number))
		}
		wanted, err := partition.Board()
		succeeds(c.t, err)
		got, err := again.Board()
		succeeds(c.t, err)
		equals(c.t, got, wanted)
		c.parts[id] = again
		partition.Close()
	}
}

// A whole course by one leader, two partitions and a router over frames. Then the partitions are rebuilt from
// the lists of their calls, and work off the course back.
func TestCoursesOfACluster(t *testing.T) {
	c := clusterOf(t)
	c.work(mixed)
	c.holds(2)
	equals(t, c.parts[1].Given(2), []squall.Span{span(squall.Key(2, 0), squall.Key(5, 0))})
	equals(t, c.parts[1].Loaded(2), []squall.Span{span(squall.Key(5, 0), squall.Key(7, 0))})
	c.rebuilds()
	c.holds(2)
	c.work(halves)
	c.holds(3)
	c.rebuilds()
}

// The partition that loads dies in the midst of a course, and goes on from the list of its calls.
func TestAPartitionThatIsRebuiltInACourse(t *testing.T) {
	c := clusterOf(t)
	succeeds(t, c.leader.Begin(mixed))
	opensNext(t, c.leader, 0, nil)
	c.sendBoard()
	equals(t, c.move(1) && c.move(3), true)
	c.rebuilds()
	for c.move(1) || c.move(3) {
	}
	for id, partition := range c.parts {
		succeeds(t, partition.Finish(0))
		c.send(squall.FrameDone(2, 0, id))
	}
	equals(t, c.leader.Finished(), true)
	c.holds(2)
}
