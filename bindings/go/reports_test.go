package squall_test

import (
	"testing"

	squall "sumelgos.example/squall/bindings/go"
)

// The frames of some reports, worked out by docs/FORMATS.md.
const (
	doneFrame = "5351010100000019" + "00000000" + "00000001" + "000000010000000000000004" + "0100000000"
	// Course 2, from the old plan of the examples to the new one.
	issueFrame = "5351020100000085" + "00000000" + "00000001" + "0000000201" +
		"00000004" + "000000030000000000000001" + "000000050000000000000002" +
		"000000090000000000000003" + "ffffffff0000000000000004" +
		"00000005" + "000000020000000000000001" + "000000030000000000000003" +
		"000000050000000000000002" + "000000060000000000000003" + "ffffffff0000000000000004" +
		"00000000"
)

func TestFramesOfReports(t *testing.T) {
	frame, err := squall.FrameLoaded(1, 0, 3, squall.Key(2, 0), squall.Key(3, 0))
	succeeds(t, err)
	equals(t, frame, unhex(loadFrame))
	frame, err = squall.FrameDone(1, 0, 4)
	succeeds(t, err)
	equals(t, frame, unhex(doneFrame))
	frame, err = squall.FrameOpened(1, 0)
	succeeds(t, err)
	equals(t, frame, unhex(openingFrame))
	frame, err = courseOf(t, 2, oldPlan, newPlan).Frame()
	succeeds(t, err)
	equals(t, frame, unhex(issueFrame))
}

// Each frame is the board of a router to which the report alone was made, also at the limits.
func TestFramesAreThoseOfRouters(t *testing.T) {
	for _, number := range []uint32{1, 2, 1<<32 - 1} {
		for _, sub := range []uint32{0, 1, 9999} {
			router := fresh(t)
			succeeds(t, router.Opened(number, sub))
			frame, err := squall.FrameOpened(number, sub)
			succeeds(t, err)
			equals(t, boardOf(t, router), squall.Frames{frame})
			for _, part := range []squall.Part{0, 9999} {
				router := fresh(t)
				succeeds(t, router.Done(number, sub, part))
				frame, err = squall.FrameDone(number, sub, part)
				succeeds(t, err)
				equals(t, boardOf(t, router), squall.Frames{frame})
				for _, keys := range [][2]squall.Rank{{0, 1}, {0, squall.End}, {squall.End - 1, squall.End}} {
					router := fresh(t)
					succeeds(t, router.Loaded(number, sub, part, keys[0], keys[1]))
					frame, err = squall.FrameLoaded(number, sub, part, keys[0], keys[1])
					succeeds(t, err)
					equals(t, boardOf(t, router), squall.Frames{frame})
				}
			}
		}
	}
}

func TestFramesOfReportsThatAreNone(t *testing.T) {
	two, three := squall.Key(2, 0), squall.Key(3, 0)
	none := func(frame []byte, err error) {
		t.Helper()
		equals(t, []any{frame, err}, []any{[]byte(nil), squall.ErrLimit})
	}
	none(squall.FrameLoaded(0, 0, 3, two, three))
	none(squall.FrameLoaded(1, 10000, 3, two, three))
	none(squall.FrameLoaded(1, 0, 10000, two, three))
	none(squall.FrameLoaded(1, 0, squall.Nowhere, two, three))
	none(squall.FrameLoaded(1, 0, 3, two, two))
	none(squall.FrameLoaded(1, 0, 3, three, two))
	none(squall.FrameLoaded(1, 0, 3, two, squall.End+1))
	none(squall.FrameLoaded(1, 0, 3, two, 1<<64-1))
	none(squall.FrameDone(0, 0, 3))
	none(squall.FrameDone(1, 10000, 3))
	none(squall.FrameDone(1, 0, 10000))
	none(squall.FrameOpened(0, 0))
	none(squall.FrameOpened(1, 10000))
	none(squall.FrameOpened(1, squall.NoSub))
}

// A router that knows the old plan alone hears of a course and its reports, by messages or in a stream.
func TestReportsThatARouterHears(t *testing.T) {
	course, err := courseOf(t, 2, oldPlan, newPlan).Frame()
	succeeds(t, err)
	load, err := squall.FrameLoaded(2, 0, 3, squall.Key(2, 0), squall.Key(3, 0))
	succeeds(t, err)
	opening, err := squall.FrameOpened(2, 0)
	succeeds(t, err)
	done, err := squall.FrameDone(2, 0, 4)
	succeeds(t, err)
	for _, take := range []func(*squall.Router, []byte) error{(*squall.Router).Hear, (*squall.Router).Feed} {
		router, err := squall.OpenRouter(1, oldPlan, oldPlan)
		succeeds(t, err)
		defer router.Close()
		succeeds(t, take(router, course))
		equals(t, router.Number(), uint32(2))
		routes(t, router, squall.Key(2, 0), 1)
		succeeds(t, take(router, load))
		routes(t, router, squall.Key(2, 0), 3)
		succeeds(t, take(router, opening))
		succeeds(t, take(router, done))
		routes(t, router, squall.Key(6, 0), 4)
	}
}

// A frame of many ranges, which is longer than the room of the first call: the largest plans have 98 KiB.
func TestFramesOfLargeCourses(t *testing.T) {
	for _, count := range []int{1, 2, 3, 100, 4096} {
		frame, err := courseOf(t, 2, striped(count, 0), striped(count, 5000)).Frame()
		succeeds(t, err)
		equals(t, len(frame), 33+2*12*count)
		router, err := squall.OpenRouter(1, striped(count, 0), striped(count, 0))
		succeeds(t, err)
		defer router.Close()
		succeeds(t, router.Hear(frame))
		course, err := router.Course()
		succeeds(t, err)
		defer course.Close()
		equals(t, []int{int(course.Number()), len(course.Moves())}, []int{2, count})
		again, err := course.Frame()
		succeeds(t, err)
		equals(t, again, frame)
	}
}

// Frames are made without a router, and so by many goroutines at once.
func TestFramesOfManyGoroutines(t *testing.T) {
	router := fresh(t)
	together(readers, func(i int) {
		for n := 0; n < 50; n++ {
			lo := squall.Key(2, uint32(50*i+n))
			frame, err := squall.FrameLoaded(1, 0, 3, lo, lo+1)
			if err == nil {
				err = router.Hear(frame)
			}
			if err != nil {
				t.Error(err)
			}
		}
	})
	whole, err := squall.FrameLoaded(1, 0, 3, squall.Key(2, 0), squall.Key(2, 50*readers))
	succeeds(t, err)
	equals(t, boardOf(t, router), squall.Frames{whole})
}
