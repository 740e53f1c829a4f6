package postgresql

import (
	"context"
	"database/sql"
	"errors"
	"fmt"
	"time"

	"github.com/lib/pq"
	squall "sumelgos.example/squall/bindings/go"
)

const (
	// again is how long it takes until a lost connection to a bus is made anew.
	again = 200 * time.Millisecond
	// silence is how long a bus may say nothing before it is asked.
	silence = 5 * time.Second
	// atOnce is how many frames are read at once.
	atOnce = 64
)

// Follow tells the router what comes over a bus of squall-bus in a database, postgres://.., until the context is done.
// Lost connections are made anew. It returns the error of the context, or of the router: [squall.ErrClosed] or
// [squall.ErrNoMemory].
func Follow(ctx context.Context, router *squall.Router, address string) error {
	connector, err := pq.NewConnector(address)
	if err != nil {
		return fmt.Errorf("bus: %w", err)
	}
	db := sql.OpenDB(connector)
	defer db.Close()
	listener := pq.NewListener(address, again, again, nil)
	defer listener.Close()
	listening := make(chan struct{})
	go func() {
		defer close(listening)
		_ = listener.Listen("squall_frames")
	}()
	reader := reader{db: db, router: router}
	for {
		wait := silence
		if err := reader.read(ctx); errors.Is(err, squall.ErrClosed) || errors.Is(err, squall.ErrNoMemory) {
			return err
		} else if err != nil {
			wait = again
		}
		timer := time.NewTimer(wait)
		select {
		case <-ctx.Done():
			timer.Stop()
			return ctx.Err()
		case <-listening:
			// Frames that came before it listened are read now.
			listening = nil
		case <-listener.Notify:
		case <-timer.C:
			go listener.Ping()
		}
		timer.Stop()
	}
}

// reader reads the table of a bus.
type reader struct {
	db     *sql.DB
	router *squall.Router
	place  int64 // the id of the row that was read last
}

// read reads the rows that are new. If the table is older than what was read, it begins anew.
func (r *reader) read(ctx context.Context) error {
	var newest int64
	if err := r.db.QueryRowContext(ctx, "select coalesce(max(id), 0) from squall_frames").Scan(&newest); err != nil {
		return err
	}
	if newest < r.place {
		r.place = 0
	}
	for {
		count, err := r.next(ctx)
		if err != nil || count < atOnce {
			return err
		}
	}
}

// next reads some rows, and returns how many.
func (r *reader) next(ctx context.Context) (int, error) {
	rows, err := r.db.QueryContext(ctx, "select id, frame from squall_frames where id > $1 order by id limit $2", r.place, atOnce)
	if err != nil {
		return 0, err
	}
	defer rows.Close()
	count := 0
	for ; rows.Next(); count++ {
		var id int64
		var frame []byte
		if err := rows.Scan(&id, &frame); err != nil {
			return count, err
		}
		// What is no frame is passed over.
		if err := r.router.Hear(frame); errors.Is(err, squall.ErrClosed) || errors.Is(err, squall.ErrNoMemory) {
			return count, err
		}
		r.place = id
	}
	return count, rows.Err()
}
