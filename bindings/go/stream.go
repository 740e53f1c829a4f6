package squall

import "io"

// stream is what a router, a partition or a leader keeps of its stream beside the library.
type stream struct {
	reading bool   // whether a ReadFrom reads it
	unfed   []byte // bytes that a ReadFrom has read, and that were not taken
}

// feeder is a router, a partition or a leader.
type feeder interface {
	// useStream makes calls with the stream, which nobody else uses meanwhile, and says whether the feeder is
	// open.
	useStream(calls func(s *stream)) bool
	// feedNext feeds the next bytes. The feeder is in use, and open.
	feedNext(bytes []byte) error
}

// feed feeds the bytes, unless a ReadFrom reads the stream.
func feed(to feeder, bytes []byte) error {
	err := error(ErrClosed)
	to.useStream(func(s *stream) {
		if err = ErrBusy; !s.reading {
			err = s.feed(to, bytes)
		}
	})
	return err
}

// feed feeds what is still to be fed, and then the bytes.
func (s *stream) feed(to feeder, bytes []byte) error {
	for _, next := range [][]byte{s.unfed, bytes} {
		if err := to.feedNext(next); err != nil {
			return err
		}
		s.unfed = nil
	}
	return nil
}

// readSize is how many bytes readFrom asks for at once.
const readSize = 64 << 10

// readFrom feeds the bytes of a reader until that is at its end, and returns how many it has read.
func readFrom(to feeder, from io.Reader) (int64, error) {
	if err := beginReading(to); err != nil {
		return 0, err
	}
	defer to.useStream(func(s *stream) { s.reading = false })
	var sum int64
	buffer := make([]byte, readSize)
	for {
		n, readErr := from.Read(buffer)
		sum += int64(n)
		if err := feedRead(to, buffer[:n]); err != nil {
			return sum, err
		}
		if readErr == io.EOF {
			return sum, nil
		}
		if readErr != nil {
			return sum, readErr
		}
	}
}

// beginReading takes the stream for a ReadFrom, if bytes can be fed at all.
func beginReading(to feeder) error {
	err := error(ErrClosed)
	to.useStream(func(s *stream) {
		if err = ErrBusy; !s.reading {
			err = s.feed(to, nil)
			s.reading = err == nil
		}
	})
	return err
}

// feedRead feeds bytes that were read, and keeps them if they may be fed again.
func feedRead(to feeder, bytes []byte) error {
	err := error(ErrClosed)
	to.useStream(func(s *stream) {
		if err = s.feed(to, bytes); err == ErrNoMemory || err == ErrFull {
			s.unfed = append(s.unfed, bytes...)
		}
	})
	return err
}
