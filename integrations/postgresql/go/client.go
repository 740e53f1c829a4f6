// Package postgresql does statements at the partition that has their key, while rows move between plain PostgreSQL
// servers. A [squall.Router] says where a key is. It learns from partitions, and from a bus if [Follow] reads one.
package postgresql

import (
	"context"
	"database/sql"
	"errors"
	"fmt"
	"math/rand"
	"strings"
	"sync"
	"sync/atomic"
	"time"

	"github.com/lib/pq"
	squall "sumelgos.example/squall/bindings/go"
)

// Mode says what a transaction does.
type Mode string

const (
	// Read is a transaction that only reads. It is done again if its answer was lost.
	Read Mode = "read"
	// Write is a transaction that may write. Its keys stay at the partition until it ends.
	Write Mode = "write"
)

// How long a client waits before it asks again: at first, and at most.
const (
	firstPause = 2 * time.Millisecond
	mostPause  = 100 * time.Millisecond
)

// newsEach is how often partitions are asked for news, if routes lag behind.
const newsEach = time.Second

// Client has connections to all partitions. Any number of goroutines may use it.
type Client struct {
	router   *squall.Router
	parts    map[squall.Part]*sql.DB
	refusals uint64 // only by sync/atomic
	mu       sync.Mutex
	next     time.Time // when a partition may be asked for news again
}

// Open opens a client of the partitions at these addresses, as lib/pq reads them: postgres://USER@HOST/DATABASE. Others
// may use the router, too. Nothing is connected yet.
func Open(router *squall.Router, addresses map[squall.Part]string) (*Client, error) {
	client := &Client{router: router, parts: make(map[squall.Part]*sql.DB, len(addresses))}
	for part, address := range addresses {
		connector, err := pq.NewConnector(address)
		if err != nil {
			return nil, fmt.Errorf("partition %d: %w", part, err)
		}
		client.parts[part] = sql.OpenDB(connector)
	}
	return client, nil
}

// Close ends all connections. The router stays open.
func (c *Client) Close() error {
	var first error
	for _, db := range c.parts {
		if err := db.Close(); err != nil && first == nil {
			first = err
		}
	}
	return first
}

// DB is the pool of connections to a partition, for its settings. It is nil if the partition has no address.
func (c *Client) DB(part squall.Part) *sql.DB {
	return c.parts[part]
}

// Refusals is how often a partition has sent this client on, or let it wait.
func (c *Client) Refusals() uint64 {
	return atomic.LoadUint64(&c.refusals)
}

// Exec does one statement that may write, in a transaction of its own, and returns how many rows it has changed. Errors
// are as those of [Client.Transact].
func (c *Client) Exec(ctx context.Context, key squall.Rank, words string, values ...any) (int64, error) {
	var count int64
	err := c.Transact(ctx, Write, []squall.Rank{key}, func(tx *sql.Tx) error {
		result, err := tx.ExecContext(ctx, words, values...)
		if err != nil {
			return err
		}
		count, err = result.RowsAffected()
		return err
	})
	return count, err
}

// Query does one statement in a transaction of its own, and returns what `row` reads of each row that it answers. Errors
// are as those of [Client.Transact].
func Query[Row any](
	ctx context.Context, c *Client, mode Mode, key squall.Rank, row func(rows *sql.Rows) (Row, error), words string, values ...any,
) ([]Row, error) {
	var found []Row
	err := c.Transact(ctx, mode, []squall.Rank{key}, func(tx *sql.Tx) error {
		found = nil
		rows, err := tx.QueryContext(ctx, words, values...)
		if err != nil {
			return err
		}
		defer rows.Close()
		for rows.Next() {
			it, err := row(rows)
			if err != nil {
				return err
			}
			found = append(found, it)
		}
		return rows.Err()
	})
	if err != nil {
		return nil, err
	}
	return found, nil
}

// Transact does what `act` does in one transaction, at the partition that has all of these keys. If they are at several
// partitions, it waits until they are at one. `act` is called again if the transaction was not done, so it changes
// nothing but by `tx`. It does not end `tx`.
//
// It tries until the context is done. Errors: an [AwayError] if no partition has done it by then; an [UnknownError];
// any other error of `act` or of a statement, and then nothing was done.
func (c *Client) Transact(ctx context.Context, mode Mode, keys []squall.Rank, act func(tx *sql.Tx) error) error {
	if len(keys) == 0 {
		return errors.New("a transaction has no key")
	}
	errand, err := c.router.Errand(keys[0])
	if err != nil {
		return err
	}
	defer func() { errand.Close() }()
	away := AwayError{Key: keys[0]}
	for pause := firstPause; ; {
		part := errand.Asked()
		fault := c.once(ctx, part, mode, keys, act)
		if fault == nil {
			if errand.Number() > 0 && c.isDue() {
				c.learn(ctx, part)
			}
			return nil
		}
		next, err := c.heed(ctx, errand, keys[0], fault)
		if err != nil {
			return err
		}
		if away.Err == nil || ctx.Err() == nil {
			away.Part, away.Err = part, fault
		}
		if next == squall.NextLost {
			errand.Close()
			if errand, err = c.router.Errand(keys[0]); err != nil {
				return err
			}
		}
		if next != squall.NextAsk || ctx.Err() != nil {
			if !sleep(ctx, pause) {
				away.Cause = ctx.Err()
				return &away
			}
			if pause *= 2; pause > mostPause {
				pause = mostPause
			}
		}
	}
}

// sleep waits between half the time and all of it: whether the context was not done before.
func sleep(ctx context.Context, most time.Duration) bool {
	timer := time.NewTimer(most/2 + time.Duration(rand.Int63n(int64(most/2))))
	defer timer.Stop()
	select {
	case <-ctx.Done():
		return false
	case <-timer.C:
		return ctx.Err() == nil
	}
}

// once does the transaction at this partition, if it can.
func (c *Client) once(ctx context.Context, part squall.Part, mode Mode, keys []squall.Rank, act func(tx *sql.Tx) error) error {
	db := c.parts[part]
	if db == nil {
		return fmt.Errorf("partition %d has no address", part)
	}
	tx, err := db.BeginTx(ctx, nil)
	if err != nil {
		return err
	}
	// This does nothing after a commit.
	defer tx.Rollback()
	if _, err := tx.ExecContext(ctx, guards(mode, keys)); err != nil {
		return err
	}
	if err := act(tx); err != nil {
		return errorOfAct(ctx, tx, err)
	}
	err = tx.Commit()
	if err != nil && mode != Read && mayBeDone(err) {
		return &UnknownError{Part: part, Err: err}
	}
	return err
}

// guards is the statement that names the keys, and refuses if one is not at the partition. What it is made of are
// numbers, so it needs one message, and no preparation.
func guards(mode Mode, keys []squall.Rank) string {
	calls := make([]string, len(keys))
	for at, key := range keys {
		root, second := uint64(key)>>32, uint32(key)
		calls[at] = fmt.Sprintf("squall.guard(%d, %d, %s)", root, second, pq.QuoteLiteral(string(mode)))
	}
	return "select " + strings.Join(calls, ", ")
}

// errorOfAct is what to make of an error that `act` has returned: a lost connection's, or the program's own.
func errorOfAct(ctx context.Context, tx *sql.Tx, err error) error {
	if isOfServer(err) || ctx.Err() != nil && errors.Is(err, ctx.Err()) {
		return err
	}
	if _, lost := tx.ExecContext(ctx, "select 1"); lost != nil && isLost(lost) {
		return lost
	}
	return &ownError{err}
}

// heed says what to do after an error, or returns the one with which to end.
func (c *Client) heed(ctx context.Context, errand *squall.Errand, key squall.Rank, fault error) (squall.Next, error) {
	refused := refusalOf(fault)
	if refused == nil {
		return squall.NextAgain, lasting(ctx, fault)
	}
	atomic.AddUint64(&c.refusals, 1)
	kind, isReply := replies[refused.word]
	switch {
	case isReply && refused.key == key.String():
		return errand.Heed(squall.Reply{Kind: kind, Part: refused.part, Number: refused.number})
	case refused.word == "COURSE":
		// It is in another course: the partition may know of one that this program does not.
		c.learn(ctx, errand.Asked())
		return squall.NextLost, nil
	}
	// Another key of the transaction is elsewhere, or the snapshot was too early.
	return squall.NextAgain, nil
}

// isDue says whether a partition may be asked for news now.
func (c *Client) isDue() bool {
	c.mu.Lock()
	defer c.mu.Unlock()
	now := time.Now()
	isDue := !now.Before(c.next)
	if isDue {
		c.next = now.Add(newsEach)
	}
	return isDue
}

// learn tells the router what a partition knows. If that fails, another time will do.
func (c *Client) learn(ctx context.Context, part squall.Part) {
	if db := c.parts[part]; db != nil {
		_ = learn(ctx, db, c.router)
	}
}
