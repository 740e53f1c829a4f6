package squall_test

import (
	"bytes"
	"errors"
	"io"
	"testing"
	"testing/iotest"

	squall "sumelgos.example/squall/bindings/go"
)

// streamed is a router, a partition or a leader.
type streamed interface {
	io.ReaderFrom
	Feed(bytes []byte) error
	Hear(frame []byte) error
	Board() (squall.Frames, error)
	Repair() (squall.Frames, error)
	Waiting() int
	Close() error
}

// streamers open one of each, all of them before any report.
var streamers = map[string]func(t *testing.T) streamed{
	"router":    func(t *testing.T) streamed { return fresh(t) },
	"partition": func(t *testing.T) streamed { return partitionOf(t, 3) },
	"leader":    func(t *testing.T) streamed { return leaderOf(t, 0) },
}

func knows(t *testing.T, it streamed) squall.Frames {
	t.Helper()
	board, err := it.Board()
	succeeds(t, err)
	return board
}

// forEachStreamer runs a part of a test for each kind, with the frames that it has once it heard a load.
func forEachStreamer(t *testing.T, run func(t *testing.T, open func() streamed, wanted squall.Frames)) {
	for name, open := range streamers {
		t.Run(name, func(t *testing.T) {
			heard := open(t)
			succeeds(t, heard.Hear(unhex(loadFrame)))
			run(t, func() streamed { return open(t) }, knows(t, heard))
		})
	}
}

func TestReadersOfEach(t *testing.T) {
	stream := unhex(emptyDelta + loadFrame + emptyDigest)
	forEachStreamer(t, func(t *testing.T, open func() streamed, wanted squall.Frames) {
		for name, cut := range map[string]func(io.Reader) io.Reader{
			"whole": func(r io.Reader) io.Reader { return r }, "byte": iotest.OneByteReader,
			"half": iotest.HalfReader, "end with bytes": iotest.DataErrReader,
		} {
			it := open()
			n, err := it.ReadFrom(cut(bytes.NewReader(stream)))
			if n != int64(len(stream)) || err != nil {
				t.Errorf("%s: %d bytes, %v", name, n, err)
			}
			repair, err := it.Repair()
			succeeds(t, err)
			equals(t, []squall.Frames{knows(t, it), repair}, []squall.Frames{wanted, wanted})
		}
	})
}

// What a reader's end cuts waits for the next reader, or for Feed.
func TestSeveralReadersOfEach(t *testing.T) {
	frame, lost := unhex(loadFrame), errors.New("lost")
	forEachStreamer(t, func(t *testing.T, open func() streamed, wanted squall.Frames) {
		for cut := range frame {
			it := open()
			n, err := it.ReadFrom(io.MultiReader(bytes.NewReader(frame[:cut]), iotest.ErrReader(lost)))
			equals(t, []any{n, err}, []any{int64(cut), lost})
			if cut%2 == 0 {
				succeeds(t, it.Feed(frame[cut:]))
			} else {
				n, err = it.ReadFrom(bytes.NewReader(frame[cut:]))
				equals(t, []any{n, err}, []any{int64(len(frame) - cut), error(nil)})
			}
			equals(t, knows(t, it), wanted)
		}
	})
}

// A fault ends the stream. Frames are still heard.
func TestFaultsInReadersOfEach(t *testing.T) {
	forEachStreamer(t, func(t *testing.T, open func() streamed, wanted squall.Frames) {
		it := open()
		n, err := it.ReadFrom(iotest.OneByteReader(bytes.NewReader(unhex(loadFrame + "545454"))))
		equals(t, []any{n, err}, []any{int64(len(unhex(loadFrame)) + 1), squall.FrameMagic})
		n, err = it.ReadFrom(bytes.NewReader(unhex(emptyDelta)))
		equals(t, []any{n, err}, []any{int64(0), squall.ErrFailed})
		succeeds(t, it.Hear(unhex(emptyDelta)))
		equals(t, knows(t, it), wanted)
	})
}

// readsPipe has it read a pipe beside the test. What this ended with comes over the channel.
func readsPipe(it streamed) (*io.PipeReader, *io.PipeWriter, chan error) {
	from, to := io.Pipe()
	ended := make(chan error)
	go func() {
		_, err := it.ReadFrom(from)
		ended <- err
	}()
	return from, to, ended
}

// While a reader's frames come, no other bytes are taken into the stream, and all else goes on.
func TestOneReaderOfEach(t *testing.T) {
	forEachStreamer(t, func(t *testing.T, open func() streamed, wanted squall.Frames) {
		it := open()
		_, to, ended := readsPipe(it)
		frame := unhex(loadFrame)
		_, err := to.Write(frame[:20])
		succeeds(t, err)
		equals(t, it.Feed(frame), squall.ErrBusy)
		n, err := it.ReadFrom(bytes.NewReader(frame))
		equals(t, []any{n, err}, []any{int64(0), squall.ErrBusy})
		succeeds(t, it.Hear(unhex(emptyDelta)))
		_, err = to.Write(frame[20:])
		succeeds(t, err)
		to.Close()
		succeeds(t, <-ended)
		equals(t, knows(t, it), wanted)
		succeeds(t, it.Feed(frame))
	})
}

// One that is closed while it reads ends the reading when the next bytes come.
func TestEachThatIsClosedWhileItReads(t *testing.T) {
	forEachStreamer(t, func(t *testing.T, open func() streamed, _ squall.Frames) {
		it := open()
		from, to, ended := readsPipe(it)
		_, err := to.Write(unhex(loadFrame)[:20])
		succeeds(t, err)
		succeeds(t, it.Close())
		go to.Write(unhex(loadFrame)[20:])
		equals(t, <-ended, squall.ErrClosed)
		from.Close()
		n, err := it.ReadFrom(bytes.NewReader(unhex(loadFrame)))
		equals(t, []any{n, err}, []any{int64(0), squall.ErrClosed})
	})
}

func TestReadersOfNone(t *testing.T) {
	for _, it := range []streamed{
		(*squall.Router)(nil), (*squall.Partition)(nil), (*squall.Leader)(nil),
		new(squall.Router), new(squall.Partition), new(squall.Leader),
	} {
		n, err := it.ReadFrom(bytes.NewReader(unhex(loadFrame)))
		equals(t, []any{n, err, it.Waiting()}, []any{int64(0), squall.ErrClosed, 0})
	}
}

// A stream that ends within a frame: the bytes of that are counted until its rest comes.
func TestBytesThatWait(t *testing.T) {
	frame := unhex(loadFrame)
	forEachStreamer(t, func(t *testing.T, open func() streamed, wanted squall.Frames) {
		it := open()
		equals(t, it.Waiting(), 0)
		_, err := it.ReadFrom(bytes.NewReader(frame[:20]))
		succeeds(t, err)
		equals(t, it.Waiting(), 20)
		succeeds(t, it.Feed(frame[20:]))
		equals(t, it.Waiting(), 0)
		equals(t, knows(t, it), wanted)
		succeeds(t, it.Feed(frame[:20]))
		succeeds(t, it.Close())
		equals(t, it.Waiting(), 0)
	})
}
