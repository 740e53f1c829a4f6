package squall_test

import (
	"bytes"
	"errors"
	"io"
	"testing"

	squall "sumelgos.example/squall/bindings/go"
)

func TestFramesCutAnywhere(t *testing.T) {
	frame := unhex(loadFrame)
	for cut := range frame {
		router := fresh(t)
		succeeds(t, router.Feed(frame[:cut]))
		routes(t, router, squall.Key(2, 0), 1)
		succeeds(t, router.Feed(frame[cut:]))
		routes(t, router, squall.Key(2, 0), 3)
		failsWith(t, fresh(t).Hear(frame[:cut]), squall.FrameShort)
	}
}

// Two frames in three pieces, cut anywhere: what is taken does not depend on where.
func TestTwoFramesCutAnywhere(t *testing.T) {
	first, both := len(unhex(loadFrame)), unhex(loadFrame+openingFrame)
	for cut := range both {
		for next := cut; next <= len(both); next++ {
			router, err := squall.OpenRouter(1, oldPlan, newPlan)
			succeeds(t, err)
			succeeds(t, router.Feed(both[:cut]))
			succeeds(t, router.Feed(both[cut:next]))
			part, _ := router.Route(squall.Key(2, 0))
			succeeds(t, router.Feed(both[next:]))
			// The frame of both has 8 bytes more than that of the load alone.
			size := len(boardOf(t, router)[0])
			if size != first+8 || (part == 3) != (next >= first) {
				t.Fatalf("cut at %d and %d: routed to %d, then %d bytes", cut, next, part, size)
			}
			router.Close()
		}
	}
}

// Bytes that are no frame, by the cases of docs/FORMATS.md.
var badFrames = []struct {
	hex   string
	fault squall.FrameFault
}{
	{"5352", squall.FrameMagic},
	{"53510301", squall.FrameVersion},
	{"53510103", squall.FrameKind},
	{"5351010100100001", squall.FrameTooLong},
	{"5351010100000000", squall.FrameCount},
	{"535101010000000800000000ffffffff", squall.FrameCount},
	{"535101010000001900000000000000010000000000000000000000030100000000", squall.FrameRange},
	{"53510201000000080000000000000000", squall.FrameRange},
	{"5351010100000018000000020000000200000001000000010000000100000000", squall.FrameOrder},
	{"5351010100000009000000000000000000", squall.FrameSpare},
}

func TestBytesThatAreNoFrame(t *testing.T) {
	for _, it := range badFrames {
		router := fresh(t)
		equals(t, router.Feed(unhex(loadFrame+it.hex)), it.fault)
		routes(t, router, squall.Key(2, 0), 3)
		equals(t, router.Feed(unhex(emptyDelta)), squall.ErrFailed)
		equals(t, router.Feed(nil), squall.ErrFailed)
		// The reader keeps its bytes.
		n, err := router.ReadFrom(bytes.NewReader(unhex(emptyDelta)))
		equals(t, n, int64(0))
		equals(t, err, squall.ErrFailed)
		equals(t, router.Feed(nil), squall.ErrFailed)
		succeeds(t, router.Done(1, 0, 4))
	}
}

func TestAFaultThatWaitsForItsBytes(t *testing.T) {
	router := fresh(t)
	succeeds(t, router.Feed(unhex("535101")))
	succeeds(t, router.Feed(nil))
	equals(t, router.Feed([]byte{3}), squall.FrameKind)
	equals(t, router.Feed([]byte{3}), squall.ErrFailed)
}

func TestWholeFrames(t *testing.T) {
	router := fresh(t)
	succeeds(t, router.Hear(unhex(loadFrame)))
	routes(t, router, squall.Key(2, 0), 3)
	succeeds(t, router.Hear(unhex(loadFrame)))
	succeeds(t, router.Hear(unhex(emptyDelta)))
	_, err := router.Repair()
	equals(t, err, squall.ErrNoDigest)
	succeeds(t, router.Hear(unhex(emptyDigest)))
	repair, err := router.Repair()
	succeeds(t, err)
	equals(t, repair, squall.Frames{unhex(loadFrame)})
}

func TestFramesThatAreNotWhole(t *testing.T) {
	router := fresh(t)
	equals(t, router.Hear(nil), squall.FrameShort)
	equals(t, router.Hear(unhex(emptyDelta+emptyDelta)), squall.FrameSpare)
	for _, it := range badFrames {
		equals(t, router.Hear(unhex(it.hex)), it.fault)
	}
	// No fault ends anything.
	succeeds(t, router.Hear(unhex(loadFrame)))
	routes(t, router, squall.Key(2, 0), 3)
}

func TestAFrameBesideAStream(t *testing.T) {
	router := fresh(t)
	succeeds(t, router.Feed(unhex("535101")))
	succeeds(t, router.Hear(unhex(loadFrame)))
	routes(t, router, squall.Key(2, 0), 3)
	equals(t, router.Feed([]byte{3}), squall.FrameKind)
	succeeds(t, router.Hear(unhex(emptyDigest)))
	_, err := router.Repair()
	succeeds(t, err)
}

func TestFramesOfABoard(t *testing.T) {
	equals(t, len(boardOf(t, fresh(t))), 0)
	router := loaded(t)
	equals(t, boardOf(t, router), squall.Frames{unhex(loadFrame)})
	equals(t, boardOf(t, router), squall.Frames{unhex(loadFrame)})
	succeeds(t, router.Issued(2, oldPlan))
	succeeds(t, router.Issued(2, newPlan))
	clash := "5351020100000032" + "00000000" + "00000001" + "0000000202" + loadFrame[24:]
	equals(t, boardOf(t, router), squall.Frames{unhex(clash)})
}

// The hash is that of SHA-256 over the cell's 33 bytes, by another program.
func TestFramesOfDigests(t *testing.T) {
	digest, err := fresh(t).Digest()
	succeeds(t, err)
	equals(t, digest, unhex(emptyDigest))
	digest, err = loaded(t).Digest()
	succeeds(t, err)
	equals(t, digest, unhex("53510102000000300000000000000001000000010000000025868db80855a707339da598e4f3"+
		"a16ab6b7b5400f2c937e7a625817d02bfa4a"))
}

// A digest of 26,215 rows has more than 1,048,576 bytes.
func TestADigestThatIsTooLong(t *testing.T) {
	router := fresh(t)
	for i := uint32(0); i < 26215; i++ {
		succeeds(t, router.Done(1+i/10000, i%10000, 3))
	}
	_, err := router.Digest()
	equals(t, err, squall.ErrTooLong)
	equals(t, len(boardOf(t, router)), 1)
}

// 65,535 spans of one cell are one more than a frame holds: two frames, of 65,534 spans and of 1.
func TestABoardOfTwoPieces(t *testing.T) {
	router, other := fresh(t), fresh(t)
	for i := squall.Rank(0); i < 65535; i++ {
		succeeds(t, router.Loaded(9, 0, 3, 2*i, 2*i+1))
	}
	frames := boardOf(t, router)
	equals(t, []int{len(frames), len(frames[0]), len(frames[1])}, []int{2, 1048577, 49})
	var stream bytes.Buffer
	n, err := frames.WriteTo(&stream)
	succeeds(t, err)
	equals(t, n, int64(1048577+49))
	n, err = other.ReadFrom(&stream)
	succeeds(t, err)
	equals(t, n, int64(1048577+49))
	equals(t, boardOf(t, other), frames)
}

// A cell with two spans has 65 bytes, one with one span has 49, and a digest of one row has 56.
func TestFramesWithinALimit(t *testing.T) {
	router := fresh(t)
	for root := uint32(2); root < 8; root += 2 {
		succeeds(t, router.Loaded(1, 0, 3, squall.Key(root, 0), squall.Key(root+1, 0)))
	}
	frames, err := router.BoardWithin(65)
	succeeds(t, err)
	equals(t, []int{len(frames), len(frames[0]), len(frames[1])}, []int{2, 65, 49})
	_, err = router.BoardWithin(48)
	equals(t, err, squall.ErrTooLong)
	_, err = router.DigestWithin(55)
	equals(t, err, squall.ErrTooLong)
	digest, err := router.DigestWithin(56)
	succeeds(t, err)
	equals(t, len(digest), 56)
	_, err = router.RepairWithin(0)
	equals(t, err, squall.ErrNoDigest)
	succeeds(t, router.Hear(unhex(emptyDigest)))
	_, err = router.RepairWithin(0)
	equals(t, err, squall.ErrTooLong)
	repair, err := router.RepairWithin(65)
	succeeds(t, err)
	equals(t, repair, frames)
}

func TestRoutersThatRepair(t *testing.T) {
	a, b := loaded(t), loaded(t)
	succeeds(t, b.Done(2, 0, 4))
	succeeds(t, b.Opened(1, 0))
	digest, err := a.Digest()
	succeeds(t, err)
	succeeds(t, b.Feed(digest))
	repair, err := b.Repair()
	succeeds(t, err)
	equals(t, repair, squall.Frames{unhex(
		"5351010100000021000000010000000100000001000000010000000200000000000000040100000000")})
	succeeds(t, a.Hear(repair[0]))
	equals(t, boardOf(t, a), boardOf(t, b))
	digest, err = a.Digest()
	succeeds(t, err)
	succeeds(t, b.Hear(digest))
	repair, err = b.Repair()
	succeeds(t, err)
	equals(t, len(repair), 0)
}

// limited takes as many bytes as it has room for. Then it fails, or takes too few and says nothing.
type limited struct {
	room int
	err  error
}

func (l *limited) Write(bytes []byte) (int, error) {
	if len(bytes) <= l.room {
		l.room -= len(bytes)
		return len(bytes), nil
	}
	return l.room, l.err
}

func TestWritersThatFail(t *testing.T) {
	frames := squall.Frames{unhex(loadFrame), unhex(openingFrame)}
	full := errors.New("full")
	for _, err := range []error{full, nil} {
		n, got := frames.WriteTo(&limited{60, err})
		equals(t, n, int64(60))
		if err == nil {
			err = io.ErrShortWrite
		}
		equals(t, got, err)
	}
	n, err := squall.Frames(nil).WriteTo(&limited{0, full})
	equals(t, n, int64(0))
	succeeds(t, err)
}
