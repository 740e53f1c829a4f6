// Command count counts at a key, wherever it is, as a program of your own would do it.
package main

import (
	"context"
	"database/sql"
	"errors"
	"flag"
	"fmt"
	"log"
	"os"
	"strconv"
	"strings"
	"time"

	squall "sumelgos.example/squall/bindings/go"
	postgresql "sumelgos.example/squall/integrations/postgresql/go"
)

const count = `insert into public.notes values ($1, $2, '', 1)
	on conflict (root, second) do update set n = notes.n + 1
	returning n, squall.part()`

// addresses are those of partitions, by the words N=ADDRESS.
type addresses map[squall.Part]string

func (a addresses) String() string { return "" }

func (a addresses) Set(word string) error {
	name, address, isSplit := strings.Cut(word, "=")
	part, err := strconv.ParseUint(name, 10, 32)
	if err != nil || !isSplit {
		return errors.New("this is not N=ADDRESS")
	}
	a[squall.Part(part)] = address
	return nil
}

func main() {
	log.SetFlags(0)
	parts := addresses{}
	flag.Var(parts, "part", "the `N=ADDRESS` of a partition, once for each")
	first := flag.String("first", "", "the `file` of course 1's plan")
	bus := flag.String("bus", "", "an `address` of squall-bus: postgres://..")
	word := flag.String("key", "", "the `key`, as 2:7")
	turns := flag.Int("turns", 0, "how often it counts; 0 for no end")
	pause := flag.Duration("pause", time.Second, "the time between two")
	flag.Parse()
	plan, err := os.ReadFile(*first)
	if err != nil {
		log.Fatal(err)
	}
	router, err := squall.OpenRouter(1, plan, plan)
	if err != nil {
		log.Fatal(err)
	}
	client, err := postgresql.Open(router, parts)
	if err != nil {
		log.Fatal(err)
	}
	if *bus != "" {
		go func() { log.Fatal(postgresql.Follow(context.Background(), router, *bus)) }()
	}
	key := squall.KeyOf([]byte(*word))
	for turn := 0; *turns == 0 || turn < *turns; turn++ {
		said, err := countOnce(client, key)
		if err != nil {
			log.Fatal(err)
		}
		fmt.Println(said)
		time.Sleep(*pause)
	}
}

// countOnce counts, and says where.
func countOnce(client *postgresql.Client, key squall.Rank) (string, error) {
	ctx, cancel := context.WithTimeout(context.Background(), time.Minute)
	defer cancel()
	row := func(rows *sql.Rows) (said string, err error) {
		var n, part int
		err = rows.Scan(&n, &part)
		return fmt.Sprintf("%v is %d at partition %d", key, n, part), err
	}
	said, err := postgresql.Query(ctx, client, postgresql.Write, key, row, count, uint64(key)>>32, uint32(key))
	if err != nil {
		return "", err
	}
	return said[0], nil
}
