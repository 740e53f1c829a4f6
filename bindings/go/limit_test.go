package squall_test

import (
	"bytes"
	"testing"
	"testing/iotest"

	squall "sumelgos.example/squall/bindings/go"
)

var noLimit = squall.Counts{
	Cells: squall.NoLimit, Spans: squall.NoLimit, Opened: squall.NoLimit, Issues: squall.NoLimit,
}

// takes are both ways by which a router takes bytes.
var takes = []func(*squall.Router, []byte) error{(*squall.Router).Feed, (*squall.Router).Hear}

func frameOf(t *testing.T, frame []byte, err error) []byte {
	t.Helper()
	succeeds(t, err)
	return frame
}

func load(t *testing.T, lo, hi squall.Rank) []byte {
	t.Helper()
	frame, err := squall.FrameLoaded(1, 0, 3, lo, hi)
	return frameOf(t, frame, err)
}

func completion(t *testing.T, part squall.Part) []byte {
	t.Helper()
	frame, err := squall.FrameDone(1, 0, part)
	return frameOf(t, frame, err)
}

func opening(t *testing.T, sub uint32) []byte {
	t.Helper()
	frame, err := squall.FrameOpened(1, sub)
	return frameOf(t, frame, err)
}

func issue(t *testing.T, number uint32) []byte {
	t.Helper()
	frame, err := courseOf(t, number, oldPlan, newPlan).Frame()
	return frameOf(t, frame, err)
}

// refuses checks that the router refuses the bytes, and that nothing changes.
func refuses(t *testing.T, router *squall.Router, take func(*squall.Router, []byte) error, bytes []byte) {
	t.Helper()
	board, taken, number := boardOf(t, router), router.Taken(), router.Number()
	equals(t, take(router, bytes), squall.ErrFull)
	equals(t, []any{boardOf(t, router), router.Taken(), router.Number()}, []any{board, taken, number})
}

// Each number of a limit is tried with a frame that brings it to 1, and one that brings it to 2.
func TestEachNumberHasItsLimit(t *testing.T) {
	for name, it := range map[string]struct {
		number        func(*squall.Counts) *uint64
		first, second []byte
	}{
		"cells":  {func(c *squall.Counts) *uint64 { return &c.Cells }, completion(t, 3), completion(t, 4)},
		"spans":  {func(c *squall.Counts) *uint64 { return &c.Spans }, load(t, 0, 1), load(t, 2, 3)},
		"opened": {func(c *squall.Counts) *uint64 { return &c.Opened }, opening(t, 0), opening(t, 1)},
		"issues": {func(c *squall.Counts) *uint64 { return &c.Issues }, issue(t, 2), issue(t, 3)},
	} {
		t.Run(name, func(t *testing.T) {
			for _, take := range takes {
				router, limit := fresh(t), noLimit
				for most, frames := range [][2][]byte{{nil, it.first}, {it.first, it.second}, {it.second, nil}} {
					*it.number(&limit) = uint64(most)
					succeeds(t, router.Limit(limit))
					if frames[0] != nil {
						succeeds(t, take(router, frames[0]))
					}
					if frames[1] != nil {
						refuses(t, router, take, frames[1])
					}
				}
				counts, err := router.Counts()
				succeeds(t, err)
				equals(t, []any{*it.number(&counts), router.Taken()}, []any{uint64(2), uint64(2)})
			}
		})
	}
}

func TestALimitThatIsTakenAway(t *testing.T) {
	for _, take := range takes {
		router := fresh(t)
		succeeds(t, router.Limit(squall.Counts{}))
		refuses(t, router, take, unhex(loadFrame))
		succeeds(t, router.Limit(noLimit))
		succeeds(t, take(router, unhex(loadFrame)))
		succeeds(t, take(router, issue(t, 2)))
		equals(t, router.Number(), uint32(2))
	}
}

// The router then tells more than the limit, so a frame that brings nothing new is refused too.
func TestOwnReportsAndDigestsPass(t *testing.T) {
	for _, take := range takes {
		router := fresh(t)
		succeeds(t, router.Limit(squall.Counts{}))
		succeeds(t, router.Loaded(1, 0, 3, 0, 1))
		succeeds(t, router.Done(1, 0, 4))
		succeeds(t, router.Opened(1, 0))
		succeeds(t, router.Issued(2, oldPlan))
		refuses(t, router, take, load(t, 0, 1))
		refuses(t, router, take, unhex(emptyDelta))
		succeeds(t, take(router, unhex(emptyDigest)))
		repair, err := router.Repair()
		succeeds(t, err)
		equals(t, []any{repair, router.Taken()}, []any{boardOf(t, router), uint64(1)})
	}
}

// A frame is cut anywhere. Its last piece is refused, and comes again once the limit is higher.
func TestAPieceThatComesAgain(t *testing.T) {
	frame := unhex(loadFrame)
	for cut := range frame {
		router := fresh(t)
		succeeds(t, router.Limit(squall.Counts{}))
		succeeds(t, router.Feed(frame[:cut]))
		refuses(t, router, (*squall.Router).Feed, frame[cut:])
		refuses(t, router, (*squall.Router).Feed, frame[cut:])
		succeeds(t, router.Limit(squall.Counts{Cells: 1, Spans: 1}))
		succeeds(t, router.Feed(frame[cut:]))
		routes(t, router, squall.Key(2, 0), 3)
	}
}

// Both loads are one span, though each has one.
func TestTheLimitIsOnWhatIsJoined(t *testing.T) {
	router := fresh(t)
	succeeds(t, router.Limit(squall.Counts{Cells: 1, Spans: 1, Opened: 3}))
	succeeds(t, router.Hear(load(t, 0, 2)))
	succeeds(t, router.Hear(load(t, 1, 4)))
	refuses(t, router, (*squall.Router).Hear, load(t, 5, 6))
	refuses(t, router, (*squall.Router).Hear, opening(t, 3))
	succeeds(t, router.Hear(opening(t, 2)))
	counts, err := router.Counts()
	succeeds(t, err)
	equals(t, counts, squall.Counts{Cells: 1, Spans: 1, Opened: 3})
}

func TestFramesThatWereTaken(t *testing.T) {
	router := fresh(t)
	equals(t, router.Taken(), uint64(0))
	three := bytes.Join([][]byte{load(t, 0, 1), unhex(emptyDigest), load(t, 4, 5)}, nil)
	succeeds(t, router.Limit(squall.Counts{Cells: 1, Spans: 1}))
	refuses(t, router, (*squall.Router).Feed, three)
	_, err := router.Repair()
	equals(t, err, squall.ErrNoDigest)
	succeeds(t, router.Limit(noLimit))
	succeeds(t, router.Feed(three))
	equals(t, router.Taken(), uint64(3))
	// Those before a fault count, and nothing after it.
	equals(t, router.Feed(bytes.Join([][]byte{load(t, 6, 7), load(t, 8, 9), []byte("ST")}, nil)), squall.FrameMagic)
	equals(t, router.Feed(unhex(emptyDigest)), squall.ErrFailed)
	equals(t, router.Hear([]byte("ST")), squall.FrameMagic)
	equals(t, router.Taken(), uint64(5))
	succeeds(t, router.Hear(unhex(emptyDigest)))
	equals(t, router.Taken(), uint64(6))
}

// What a reader gave is not lost if it was refused: once the limit is higher, the next call feeds it.
func TestAReaderThatIsRefused(t *testing.T) {
	first, second := load(t, 0, 1), load(t, 2, 3)
	router, from := fresh(t), iotest.HalfReader(bytes.NewReader(append(append([]byte{}, first...), second...)))
	succeeds(t, router.Limit(squall.Counts{}))
	n, err := router.ReadFrom(from)
	equals(t, err, squall.ErrFull)
	refuses(t, router, (*squall.Router).Feed, nil)
	again, err := router.ReadFrom(from)
	equals(t, []any{again, err}, []any{int64(0), squall.ErrFull})
	succeeds(t, router.Limit(squall.Counts{Cells: 1, Spans: 2}))
	rest, err := router.ReadFrom(from)
	succeeds(t, err)
	equals(t, n+rest, int64(len(first)+len(second)))
	equals(t, []any{len(boardOf(t, router)[0]), router.Taken()}, []any{65, uint64(2)})
}

func TestTheLimitOfAClosedRouter(t *testing.T) {
	closed := fresh(t)
	succeeds(t, closed.Hear(unhex(loadFrame)))
	closed.Close()
	for _, router := range []*squall.Router{closed, nil, new(squall.Router)} {
		equals(t, router.Limit(noLimit), squall.ErrClosed)
		equals(t, router.Taken(), uint64(0))
	}
}
