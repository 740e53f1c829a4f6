package postgresql

import (
	"context"
	"database/sql"
	"encoding/json"
	"errors"
	"fmt"
	"os"
	"os/exec"
	"strings"
	"sync"
	"testing"
	"time"

	"github.com/lib/pq"
	squall "sumelgos.example/squall/bindings/go"
)

// deployment is what checks/test_go.py has started: three partitions in course 1, a bus and a mover. The keys below 250:0
// move from partition 1 to 3 in each course with an even number, and back in the next one. Those from 300:0 on, below
// 400:0, stay at 1.
type deployment struct {
	Apps  map[squall.Part]string // the addresses of the partitions, for programs
	Parts map[squall.Part]string // the same, for a superuser
	Bus   string
	Plans []string // the files of the plans between which courses go to and fro
	Mover []string // the words of the program that moves, before those of a course
}

var (
	here    deployment
	courses uint32 = 1 // the number of the newest course
)

func TestMain(m *testing.M) {
	text := os.Getenv("SQUALL_DEPLOYMENT")
	if text == "" {
		fmt.Println("no servers: tools/integrations pg_go starts them")
		return
	}
	if err := json.Unmarshal([]byte(text), &here); err != nil {
		panic(err)
	}
	os.Exit(m.Run())
}

// move does a whole course, at most so many rows a second, or as fast as it can with 0.
func move(t *testing.T, rate int) {
	t.Helper()
	courses++
	course := []string{"--number", fmt.Sprint(courses), "--old", here.Plans[courses%2], "--new", here.Plans[1-courses%2]}
	if rate > 0 {
		course = append(course, "--rate", fmt.Sprint(rate))
	}
	program := exec.Command(here.Mover[0], here.Mover[1:]...)
	program.Args = append(program.Args, course...)
	said, err := program.CombinedOutput()
	if err != nil {
		t.Fatalf("course %d: %v: %s", courses, err, said)
	}
}

// open opens a client with a router of its own, which knows of course 1 alone.
func open(t *testing.T) *Client {
	t.Helper()
	plan, err := os.ReadFile(here.Plans[0])
	if err != nil {
		t.Fatal(err)
	}
	router, err := squall.OpenRouter(1, plan, plan)
	if err != nil {
		t.Fatal(err)
	}
	client, err := Open(router, here.Apps)
	if err != nil {
		t.Fatal(err)
	}
	t.Cleanup(func() {
		client.Close()
		router.Close()
	})
	return client
}

// within is a context with a time that suffices on a busy machine, too.
func within(t *testing.T, most time.Duration) context.Context {
	ctx, cancel := context.WithTimeout(context.Background(), most)
	t.Cleanup(cancel)
	return ctx
}

func words(key squall.Rank) []any {
	return []any{uint64(key) >> 32, uint32(key)}
}

// write writes at the key, and returns how often that was done.
func write(ctx context.Context, client *Client, key squall.Rank, text string) (int, error) {
	found, err := Query(ctx, client, Write, key, readInt, `insert into public.notes values ($1, $2, $3, 1)
		on conflict (root, second) do update set v = excluded.v, n = notes.n + 1 returning n`, append(words(key), text)...)
	if err != nil {
		return 0, err
	}
	return found[0], nil
}

// read is the text and the count of a key, if it has a row.
func read(ctx context.Context, client *Client, key squall.Rank) ([]string, error) {
	return Query(ctx, client, Read, key, func(rows *sql.Rows) (string, error) {
		var text string
		var count int
		err := rows.Scan(&text, &count)
		return fmt.Sprint(text, " ", count), err
	}, "select v, n from public.notes where root = $1 and second = $2", words(key)...)
}

func readInt(rows *sql.Rows) (int, error) {
	var it int
	err := rows.Scan(&it)
	return it, err
}

// is fails unless a call has answered that, without an error.
func is[T comparable](t *testing.T, wanted T) func(T, error) {
	t.Helper()
	return func(found T, err error) {
		t.Helper()
		if err != nil || found != wanted {
			t.Fatalf("%v, %v, and not %v", found, err, wanted)
		}
	}
}

// isRows is the same of rows.
func isRows(t *testing.T, wanted ...string) func([]string, error) {
	t.Helper()
	return func(found []string, err error) {
		t.Helper()
		is(t, strings.Join(wanted, "|"))(strings.Join(found, "|"), err)
	}
}

func TestAProgramWithoutABusFindsEachKey(t *testing.T) {
	ctx, key := within(t, time.Minute), squall.Key(10, 1)
	old := open(t)
	is(t, 1)(write(ctx, old, key, "a"))
	for count := 2; count < 6; count++ {
		move(t, 0)
		is(t, count)(write(ctx, old, key, fmt.Sprint(count)))
		isRows(t, fmt.Sprint(count, " ", count))(read(ctx, open(t), key))
	}
	// It has learned by now.
	before := old.Refusals()
	isRows(t, "5 5")(read(ctx, old, key))
	if asked := old.Refusals() - before; asked > 1 {
		t.Errorf("it was sent on %d times", asked)
	}
}

func TestAProgramLearnsByTheBus(t *testing.T) {
	ctx, key := within(t, time.Minute), squall.Key(10, 2)
	client := open(t)
	follows, stop := context.WithCancel(ctx)
	over := make(chan error)
	go func() { over <- Follow(follows, client.router, here.Bus) }()
	is(t, 1)(write(ctx, client, key, "a"))
	move(t, 0)
	dest := map[uint32]squall.Part{0: 3, 1: 1}[courses%2]
	for part, _ := client.router.Route(key); client.router.Number() < courses || part != dest; part, _ = client.router.Route(key) {
		if ctx.Err() != nil {
			t.Fatalf("the route leads to %d in course %d", part, client.router.Number())
		}
		time.Sleep(10 * time.Millisecond)
	}
	before := client.Refusals()
	is(t, 2)(write(ctx, client, key, "b"))
	is(t, before)(client.Refusals(), nil)
	stop()
	if err := <-over; !errors.Is(err, context.Canceled) {
		t.Error(err)
	}
}

// Counts at many keys while these move to and fro. Each count that was acknowledged is there in the end, once.
func TestNothingIsLostWhileRowsMove(t *testing.T) {
	ctx, client := within(t, 5*time.Minute), open(t)
	const threads, perThread = 8, 20
	goesOn, stop := context.WithCancel(ctx)
	counts := make(chan map[squall.Rank]int, threads)
	var all sync.WaitGroup
	for thread := 0; thread < threads; thread++ {
		all.Add(1)
		go func(thread int) {
			defer all.Done()
			own := map[squall.Rank]int{}
			for turn := 0; goesOn.Err() == nil; turn++ {
				key := squall.Key(uint32(13*(turn%perThread)), uint32(1000+thread))
				count, err := write(ctx, client, key, "x")
				if err != nil || count != own[key]+1 {
					t.Errorf("key %v: %d, %v after %d", key, count, err, own[key])
					break
				}
				own[key] = count
			}
			counts <- own
		}(thread)
	}
	for course := 0; course < 4; course++ {
		move(t, 200)
	}
	stop()
	all.Wait()
	close(counts)
	sum := 0
	for own := range counts {
		for key, count := range own {
			sum += count
			isRows(t, fmt.Sprint("x ", count))(read(ctx, client, key))
		}
	}
	t.Logf("%d counts, %d times sent on", sum, client.Refusals())
	if client.Refusals() == 0 || sum < threads {
		t.Error("nothing has moved meanwhile")
	}
}

func TestATransactionHasSeveralKeys(t *testing.T) {
	ctx, client := within(t, time.Minute), open(t)
	near, far := []squall.Rank{squall.Key(10, 3), squall.Key(11, 3)}, []squall.Rank{squall.Key(10, 3), squall.Key(300, 3)}
	count := 0
	act := func(tx *sql.Tx) error {
		for _, key := range near {
			if _, err := tx.ExecContext(ctx, `insert into public.notes values ($1, $2, 'a', 1)
				on conflict (root, second) do update set n = notes.n + 1`, words(key)...); err != nil {
				return err
			}
		}
		return tx.QueryRowContext(ctx, "select count(*) from public.notes").Scan(&count)
	}
	for turn := 0; turn < 2; turn++ {
		if err := client.Transact(ctx, Write, near, act); err != nil || count != 2 {
			t.Fatalf("%d rows, %v", count, err)
		}
		move(t, 0)
	}
	if courses%2 == 1 {
		move(t, 0)
	}
	// One is at partition 3 now, and one at 1.
	err := open(t).Transact(within(t, time.Second), Write, far, act)
	var away *AwayError
	if !errors.As(err, &away) || !errors.Is(err, context.DeadlineExceeded) || away.Key != far[0] {
		t.Fatal(err)
	}
	isRows(t, "a 2")(read(ctx, client, near[0]))
}

func TestErrorsAreTheProgramS(t *testing.T) {
	ctx, client, key := within(t, time.Minute), open(t), squall.Key(10, 4)
	_, err := client.Exec(ctx, key, "update public.notes set x = 1")
	var server *pq.Error
	if !errors.As(err, &server) || server.Code.Name() != "undefined_column" {
		t.Fatal(err)
	}
	mine := errors.New("mine")
	err = client.Transact(ctx, Write, []squall.Rank{key}, func(tx *sql.Tx) error {
		if _, err := tx.ExecContext(ctx, "insert into public.notes values ($1, $2, 'a', 1)", words(key)...); err != nil {
			return err
		}
		return mine
	})
	if err != mine {
		t.Fatal(err)
	}
	isRows(t)(read(ctx, client, key))
	if client.Transact(ctx, Write, nil, func(tx *sql.Tx) error { return nil }) == nil {
		t.Error("a transaction without a key was done")
	}
	is(t, 1)(write(ctx, client, key, "a"))
	is[int64](t, 1)(client.Exec(ctx, key, "update public.notes set v = 'b'"))
	is[int64](t, 0)(client.Exec(ctx, squall.Key(10, 5), "update public.notes set v = 'b'"))
	isRows(t, "b 1")(read(ctx, client, key))
}

// cut ends the connections of all programs to a partition.
func cut(t *testing.T, part squall.Part) {
	t.Helper()
	db, err := sql.Open("postgres", here.Parts[part])
	if err != nil {
		t.Fatal(err)
	}
	defer db.Close()
	if _, err := db.Exec(`select pg_terminate_backend(pid, 10000) from pg_stat_activity
		where usename = 'app' and datname = current_database()`); err != nil {
		t.Fatal(err)
	}
}

func TestACutConnectionLeavesACommitInDoubt(t *testing.T) {
	ctx, client, key := within(t, time.Minute), open(t), squall.Key(300, 5)
	is(t, 1)(write(ctx, client, key, "a"))
	// Between two transactions it does not matter, nor within one before its commit.
	cut(t, 1)
	is(t, 2)(write(ctx, client, key, "b"))
	turns := 0
	act := func(cutAt int, then func() error) func(tx *sql.Tx) error {
		return func(tx *sql.Tx) error {
			if turns++; turns == cutAt {
				cut(t, 1)
			}
			return then()
		}
	}
	nothing := func() error { return nil }
	err := client.Transact(ctx, Write, []squall.Rank{key}, act(1, nothing))
	var unknown *UnknownError
	if !errors.As(err, &unknown) || unknown.Part != 1 {
		t.Fatal(err)
	}
	// What only reads is done again, and so is what has ended before its commit.
	turns = 0
	if err := client.Transact(ctx, Read, []squall.Rank{key}, act(1, nothing)); err != nil || turns != 2 {
		t.Fatal(turns, err)
	}
	turns = 0
	err = client.Transact(ctx, Write, []squall.Rank{key}, act(1, func() error {
		if turns == 1 {
			return errors.New("of a lost connection")
		}
		return nil
	}))
	if err != nil || turns != 2 {
		t.Fatal(turns, err)
	}
	isRows(t, "b 2")(read(ctx, client, key))
}

func TestAPartitionThatIsAwayIsWaitedFor(t *testing.T) {
	plan, err := os.ReadFile(here.Plans[0])
	if err != nil {
		t.Fatal(err)
	}
	router, err := squall.OpenRouter(1, plan, plan)
	if err != nil {
		t.Fatal(err)
	}
	defer router.Close()
	client, err := Open(router, map[squall.Part]string{1: "postgres://app@127.0.0.1:1/none?sslmode=disable"})
	if err != nil {
		t.Fatal(err)
	}
	defer client.Close()
	_, err = read(within(t, 300*time.Millisecond), client, squall.Key(300, 6))
	var away *AwayError
	if !errors.As(err, &away) || !errors.Is(err, context.DeadlineExceeded) || !strings.Contains(err.Error(), "refused") {
		t.Error(err)
	}
	_, err = read(within(t, time.Minute), client, squall.Key(500, 6))
	if err == nil || err.Error() != "partition 2 has no address" {
		t.Error(err)
	}
	if _, err := Open(router, map[squall.Part]string{1: "postgres://a b"}); err == nil {
		t.Error("that is no address")
	}
}
