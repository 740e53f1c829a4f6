package squall_test

import (
	"errors"
	"fmt"
	"testing"

	squall "sumelgos.example/squall/bindings/go"
)

// leaderOf is a leader of the old example plan, which is closed when the test ends.
func leaderOf(t testing.TB, last uint32) *squall.Leader {
	t.Helper()
	leader, err := squall.OpenLeader(oldPlan, last)
	succeeds(t, err)
	t.Cleanup(func() { leader.Close() })
	return leader
}

// hearsDone tells the leader that the partition is done in sub-plan 0.
func hearsDone(t testing.TB, leader *squall.Leader, number uint32, part squall.Part) {
	t.Helper()
	frame, err := squall.FrameDone(number, 0, part)
	succeeds(t, err)
	succeeds(t, leader.Hear(frame))
}

// opensNext checks what the leader opens next.
func opensNext(t testing.TB, leader *squall.Leader, wanted uint32, wantedErr error) {
	t.Helper()
	sub, err := leader.OpenNext()
	equals(t, []any{sub, err}, []any{wanted, wantedErr})
}

// led checks the newest course of a leader or a router.
func led(t testing.TB, by interface {
	Course() (*squall.Course, error)
}, number uint32, moves []squall.Move) {
	t.Helper()
	course, err := by.Course()
	succeeds(t, err)
	defer course.Close()
	equals(t, course.Number(), number)
	equals(t, course.Moves(), moves)
}

func TestALeaderThereAndBack(t *testing.T) {
	leader := leaderOf(t, 0)
	opensNext(t, leader, 0, squall.ErrIdle)
	course, err := leader.Course()
	equals(t, []any{course, err, leader.Finished()}, []any{(*squall.Course)(nil), squall.ErrIdle, false})
	succeeds(t, leader.Begin(newPlan))
	equals(t, leader.Begin(oldPlan), squall.ErrRunning)
	opensNext(t, leader, 0, nil)
	opensNext(t, leader, 0, &squall.NotDoneError{Part: 3, Sub: 0})
	hearsDone(t, leader, 1, 3)
	opensNext(t, leader, 0, &squall.NotDoneError{Part: 4, Sub: 0})
	equals(t, leader.Finished(), false)
	hearsDone(t, leader, 1, 4)
	equals(t, leader.Finished(), true)
	opensNext(t, leader, 0, squall.ErrNoMore)
	led(t, leader, 1, exampleMoves)
	succeeds(t, leader.Begin(oldPlan))
	equals(t, leader.Finished(), false)
	led(t, leader, 2, movesBack)
	course, err = leader.Course()
	succeeds(t, err)
	defer course.Close()
	leader.Close()
	equals(t, course.Moves(), movesBack)
}

// middlePlan lies between the example plans: the keys of 2:0 have moved, and those of 6:0 to 8:0 have not.
var middlePlan = []byte(`{"plan":[{"part":1,"from":[0,0],"to":[2,0]},{"part":3,"from":[2,0],"to":[3,0]},
{"part":2,"from":[3,0],"to":[5,0]},{"part":3,"from":[5,0],"to":[9,0]},{"part":4,"from":[9,0],"to":"end"}]}`)

// A course that is not over ends early: the next one begins where the keys lie then.
func TestACourseThatEndsEarly(t *testing.T) {
	leader, router := leaderOf(t, 0), fresh(t)
	succeeds(t, leader.Begin(newPlan))
	opensNext(t, leader, 0, nil)
	equals(t, leader.Begin(oldPlan), squall.ErrRunning)
	succeeds(t, leader.BeginFrom(middlePlan, newPlan))
	equals(t, leader.Finished(), false)
	led(t, leader, 2, exampleMoves[1:])
	for _, course := range []*squall.Course{courseOf(t, 1, oldPlan, newPlan), courseOf(t, 2, middlePlan, newPlan)} {
		frame, err := course.Frame()
		succeeds(t, err)
		succeeds(t, router.Hear(frame))
	}
	succeeds(t, router.Hear(unhex(openingFrame)))
	board, err := leader.Board()
	succeeds(t, err)
	equals(t, board, boardOf(t, router))
	opensNext(t, leader, 0, nil)
	opensNext(t, leader, 0, &squall.NotDoneError{Part: 4, Sub: 0})
	hearsDone(t, leader, 2, 4)
	equals(t, leader.Finished(), true)
	succeeds(t, leader.BeginFrom(newPlan, oldPlan))
	led(t, leader, 3, movesBack)
	succeeds(t, leader.BeginFrom(newPlan, newPlan))
	led(t, leader, 4, nil)
	equals(t, leader.Finished(), true)
}

func TestTheErrorOfALeaderThatWaits(t *testing.T) {
	leader := leaderOf(t, 0)
	succeeds(t, leader.Begin(newPlan))
	opensNext(t, leader, 0, nil)
	_, err := leader.OpenNext()
	equals(t, err.Error(), "squall: partition 3 has not reported that it has all keys of sub-plan 0")
	err = fmt.Errorf("course 1: %w", err)
	failsWith(t, err, squall.ErrNotDone)
	equals(t, squall.StatusOf(err), uint32(94))
	var waits *squall.NotDoneError
	if !errors.As(err, &waits) || waits.Part != 3 || waits.Sub != 0 {
		t.Error(err)
	}
}

func TestTheLastNumber(t *testing.T) {
	leader := leaderOf(t, 1<<32-2)
	succeeds(t, leader.Begin(oldPlan))
	equals(t, leader.Finished(), true)
	opensNext(t, leader, 0, squall.ErrNoMore)
	equals(t, leader.Begin(newPlan), squall.ErrNoNumber)
	equals(t, leader.BeginFrom(oldPlan, newPlan), squall.ErrNoNumber)
	led(t, leader, 1<<32-1, nil)
	equals(t, leaderOf(t, 1<<32-1).Begin(newPlan), squall.ErrNoNumber)
}

func TestACourseThatIsResumed(t *testing.T) {
	course := courseOf(t, 7, oldPlan, newPlan)
	leader, err := squall.ResumeLeader(course)
	succeeds(t, err)
	defer leader.Close()
	course.Close()
	equals(t, leader.Begin(oldPlan), squall.ErrRunning)
	opensNext(t, leader, 0, nil)
	hearsDone(t, leader, 7, 3)
	hearsDone(t, leader, 7, 4)
	succeeds(t, leader.Begin(oldPlan))
	led(t, leader, 8, movesBack)
	for _, course := range []*squall.Course{course, nil, new(squall.Course)} {
		leader, err := squall.ResumeLeader(course)
		equals(t, []any{leader, err}, []any{(*squall.Leader)(nil), squall.ErrClosed})
	}
}

// The text of an opening is the old plan, and that of a course the new one.
func TestTextsForLeadersThatAreNoPlans(t *testing.T) {
	leader := leaderOf(t, 0)
	for _, it := range noPlans {
		none, err := squall.OpenLeader([]byte(it.text), 0)
		equals(t, []any{none, err}, []any{(*squall.Leader)(nil),
			&squall.PlanError{Fault: it.fault, Entry: it.entry, Key: it.key}})
		equals(t, leader.Begin([]byte(it.text)),
			error(&squall.PlanError{Fault: it.fault, New: true, Entry: it.entry, Key: it.key}))
		equals(t, leader.BeginFrom([]byte(it.text), nil),
			error(&squall.PlanError{Fault: it.fault, Entry: it.entry, Key: it.key}))
		equals(t, leader.BeginFrom(oldPlan, []byte(it.text)),
			error(&squall.PlanError{Fault: it.fault, New: true, Entry: it.entry, Key: it.key}))
	}
	succeeds(t, leader.Begin(newPlan))
	led(t, leader, 1, exampleMoves)
}

// A standby leader hears what it lacks, and a router that knows the old plan alone follows.
func TestFramesOfLeaders(t *testing.T) {
	leader, standby := leaderOf(t, 1), leaderOf(t, 1)
	router, err := squall.OpenRouter(1, oldPlan, oldPlan)
	succeeds(t, err)
	defer router.Close()
	board, err := leader.Board()
	succeeds(t, err)
	equals(t, len(board), 0)
	succeeds(t, leader.Begin(newPlan))
	opensNext(t, leader, 0, nil)
	hearsDone(t, leader, 2, 3)
	_, err = leader.Repair()
	equals(t, err, squall.ErrNoDigest)
	digest, err := standby.Digest()
	succeeds(t, err)
	succeeds(t, leader.Hear(digest))
	repair, err := leader.Repair()
	succeeds(t, err)
	for _, frame := range repair {
		succeeds(t, standby.Hear(frame))
		succeeds(t, router.Hear(frame))
		equals(t, leader.Hear(frame[1:]), squall.FrameMagic)
		equals(t, leader.Hear(append(frame, 0)), squall.FrameSpare)
	}
	equals(t, router.Number(), uint32(2))
	routes(t, router, two, 3)
	board, err = leader.Board()
	succeeds(t, err)
	equals(t, board, repair)
	board, err = standby.Board()
	succeeds(t, err)
	equals(t, board, repair)
}

// A stream for a leader is cut anywhere, and a fault ends it.
func TestAStreamForALeader(t *testing.T) {
	first, err := squall.FrameDone(1, 0, 3)
	succeeds(t, err)
	second, err := squall.FrameDone(1, 0, 4)
	succeeds(t, err)
	stream := append(append([]byte{}, first...), second...)
	for cut := range stream {
		leader := leaderOf(t, 0)
		succeeds(t, leader.Begin(newPlan))
		opensNext(t, leader, 0, nil)
		succeeds(t, leader.Feed(stream[:cut]))
		equals(t, leader.Finished(), false)
		succeeds(t, leader.Hear(first))
		succeeds(t, leader.Feed(stream[cut:]))
		equals(t, leader.Finished(), true)
		equals(t, leader.Feed([]byte("no")), squall.FrameMagic)
		equals(t, leader.Feed(stream), squall.ErrFailed)
		succeeds(t, leader.Hear(first))
		succeeds(t, leader.Close())
	}
}

// Partitions and leaders hear more than a digest has rows for.
func TestDigestsOfPartitionsAndLeadersThatAreTooLong(t *testing.T) {
	router, partition, leader := fresh(t), partitionOf(t, 1), leaderOf(t, 0)
	for i := uint32(0); i < 26215; i++ {
		succeeds(t, router.Done(1+i/10000, i%10000, 3))
	}
	for _, frame := range boardOf(t, router) {
		succeeds(t, partition.Hear(frame))
		succeeds(t, leader.Hear(frame))
	}
	_, err := partition.Digest()
	equals(t, err, squall.ErrTooLong)
	_, err = leader.Digest()
	equals(t, err, squall.ErrTooLong)
}

// A course of two plans has more than 49 bytes.
func TestFramesOfPartitionsAndLeadersWithinALimit(t *testing.T) {
	partition, leader := partitionOf(t, 1), leaderOf(t, 0)
	succeeds(t, leader.Begin(newPlan))
	frames, err := leader.Board()
	succeeds(t, err)
	succeeds(t, partition.Hear(frames[0]))
	_, err = partition.BoardWithin(49)
	equals(t, err, squall.ErrTooLong)
	_, err = leader.BoardWithin(49)
	equals(t, err, squall.ErrTooLong)
	_, err = partition.DigestWithin(19)
	equals(t, err, squall.ErrTooLong)
	_, err = leader.DigestWithin(19)
	equals(t, err, squall.ErrTooLong)
	_, err = partition.RepairWithin(49)
	equals(t, err, squall.ErrNoDigest)
	frames, err = leader.BoardWithin(98337)
	succeeds(t, err)
	equals(t, len(frames), 1)
}

func TestALeaderThatIsClosed(t *testing.T) {
	closed := leaderOf(t, 0)
	succeeds(t, closed.Begin(newPlan))
	succeeds(t, closed.Close())
	succeeds(t, closed.Close())
	for _, leader := range []*squall.Leader{closed, nil, new(squall.Leader)} {
		course, courseErr := leader.Course()
		equals(t, []any{course, leader.Finished()}, []any{(*squall.Course)(nil), false})
		_, boardErr := leader.Board()
		_, digestErr := leader.Digest()
		_, repairErr := leader.Repair()
		for _, err := range []error{
			leader.Begin(newPlan), leader.BeginFrom(oldPlan, newPlan),
			leader.Feed(unhex(loadFrame)), leader.Hear(unhex(loadFrame)), courseErr, boardErr, digestErr, repairErr,
		} {
			equals(t, err, squall.ErrClosed)
		}
		opensNext(t, leader, 0, squall.ErrClosed)
		succeeds(t, leader.Close())
	}
}

// One goroutine opens sub-plans, while others report what is done and look at the course, until it is closed.
func TestLeadersOfManyGoroutines(t *testing.T) {
	for round := 0; round < 20; round++ {
		leader := leaderOf(t, 0)
		succeeds(t, leader.Begin(newPlan))
		together(readers, func(i int) {
			frame, err := squall.FrameDone(1, 0, squall.Part(3+i%2))
			if err == nil {
				err = leader.Hear(frame)
			}
			if err != nil && err != squall.ErrClosed {
				t.Error(err)
			}
			if sub, err := leader.OpenNext(); err == nil && sub != 0 {
				t.Error(sub)
			}
			if course, err := leader.Course(); err == nil {
				equals(t, course.Moves(), exampleMoves)
				course.Close()
			} else if err != squall.ErrClosed {
				t.Error(err)
			}
			if i == round%readers && round%2 == 0 {
				leader.Close()
			}
		})
	}
}
