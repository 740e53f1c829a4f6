package postgresql

import (
	"context"
	"database/sql"
	"database/sql/driver"
	"errors"
	"fmt"
	"io"
	"net"
	"strconv"
	"strings"

	"github.com/lib/pq"
	squall "sumelgos.example/squall/bindings/go"
)

// AwayError says that no partition has done it before the context was done. It was not done.
type AwayError struct {
	Key   squall.Rank
	Part  squall.Part // the partition that was asked last
	Err   error       // what it has answered
	Cause error       // the error of the context
}

func (e *AwayError) Error() string {
	return fmt.Sprintf("key %v: partition %d: %v: %v", e.Key, e.Part, e.Err, e.Cause)
}

// Unwrap is the error of the context.
func (e *AwayError) Unwrap() error { return e.Cause }

// UnknownError says that the connection was lost before the answer to a commit came: it is not known whether the
// transaction was done.
type UnknownError struct {
	Part squall.Part
	Err  error
}

func (e *UnknownError) Error() string {
	return fmt.Sprintf("partition %d: it is not known whether this was done: %v", e.Part, e.Err)
}

// Unwrap is the error of the connection.
func (e *UnknownError) Unwrap() error { return e.Err }

// ownError is an error of the program, and none of a server.
type ownError struct{ error }

func (e *ownError) Unwrap() error { return e.error }

// refused is the SQLSTATE with which the guard refuses a statement: the message is a reply.
const refused = "SQ001"

var (
	// The beginnings of the SQLSTATEs of a transaction that was not done, and may be done again: another one was in the
	// way, or the server lacks memory, disk or connections.
	busy = []string{"40001", "40P01", "55P03", "53"}
	// The server ends, or the connection has.
	ends = []string{"57P", "08"}
)

var replies = map[string]squall.ReplyKind{
	"MOVED": squall.ReplyMoved, "PENDING": squall.ReplyPending, "ELSEWHERE": squall.ReplyElsewhere,
}

// refusal is what the guard replies if a key is not there.
type refusal struct {
	word   string // MOVED, PENDING, ELSEWHERE, COURSE or AGAIN
	part   squall.Part
	number uint32 // the number of a course that MOVED names
	key    string // the key of which it speaks, as root:second
}

// refusalOf is the guard's reply, or nil if the error is none.
func refusalOf(err error) *refusal {
	var server *pq.Error
	if !errors.As(err, &server) || server.Code != refused {
		return nil
	}
	words := append(strings.Fields(server.Message), "", "", "")
	part, _ := strconv.ParseUint(words[1], 10, 32)
	number, _ := strconv.ParseUint(words[2], 10, 32)
	key := server.Detail[strings.LastIndex(server.Detail, " ")+1:]
	return &refusal{word: words[0], part: squall.Part(part), number: uint32(number), key: key}
}

// lasting is the error with which a transaction ends that had this one, or nil if it may be done again.
func lasting(ctx context.Context, err error) error {
	var own *ownError
	if errors.As(err, &own) {
		return own.error
	}
	var unknown *UnknownError
	if errors.As(err, &unknown) || ctx.Err() == nil && !isLost(err) && !hasState(err, busy) {
		return err
	}
	return nil
}

// mayBeDone says whether a transaction may have been done whose commit had this error.
func mayBeDone(err error) bool {
	if isOfServer(err) {
		return isLost(err)
	}
	for _, before := range []error{pq.ErrInFailedTransaction, sql.ErrTxDone, context.Canceled, context.DeadlineExceeded} {
		if errors.Is(err, before) {
			return false
		}
	}
	return true
}

// isLost says whether the connection has ended.
func isLost(err error) bool {
	if isOfServer(err) {
		return hasState(err, ends)
	}
	var network *net.OpError
	return errors.As(err, &network) || errors.Is(err, driver.ErrBadConn) || errors.Is(err, io.EOF) || errors.Is(err, io.ErrUnexpectedEOF)
}

// isOfServer says whether a server has answered with the error.
func isOfServer(err error) bool {
	var server *pq.Error
	return errors.As(err, &server)
}

func hasState(err error, begins []string) bool {
	var server *pq.Error
	if errors.As(err, &server) {
		for _, begin := range begins {
			if strings.HasPrefix(string(server.Code), begin) {
				return true
			}
		}
	}
	return false
}
