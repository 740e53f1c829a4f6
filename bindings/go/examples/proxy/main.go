// A routing proxy in small: says for each key which partition to ask, and hears frames from others.
//
//	proxy OLD NEW
//
// OLD and NEW are files with the text of a plan. Each line of standard input is answered by one:
//
//	key R:S      the partition to ask for the key
//	frame HEX    its bytes, two digits each: `taken`, or `fault N` with the library's status
package main

import (
	"bufio"
	"encoding/hex"
	"errors"
	"fmt"
	"io"
	"os"
	"strings"

	squall "sumelgos.example/squall/bindings/go"
)

func main() {
	if len(os.Args) != 3 {
		fmt.Fprintln(os.Stderr, "usage: proxy OLD NEW")
		os.Exit(2)
	}
	if err := run(os.Args[1], os.Args[2], os.Stdin, os.Stdout); err != nil {
		fmt.Fprintln(os.Stderr, "proxy:", err)
		os.Exit(1)
	}
}

// run opens a router of two files, and answers lines by it.
func run(oldName, newName string, from io.Reader, to io.Writer) error {
	oldPlan, err := os.ReadFile(oldName)
	if err != nil {
		return err
	}
	newPlan, err := os.ReadFile(newName)
	if err != nil {
		return err
	}
	router, err := squall.OpenRouter(1, oldPlan, newPlan)
	if err != nil {
		return err
	}
	defer router.Close()
	return answerLines(router, from, to)
}

// answerLines answers each line before it reads the next. A line may be of any length.
func answerLines(router *squall.Router, from io.Reader, to io.Writer) error {
	lines := bufio.NewReader(from)
	for {
		line, err := lines.ReadString('\n')
		if line != "" {
			if _, err := fmt.Fprintln(to, answer(router, strings.TrimSuffix(line, "\n"))); err != nil {
				return err
			}
		}
		if errors.Is(err, io.EOF) {
			return nil
		}
		if err != nil {
			return err
		}
	}
}

func answer(router *squall.Router, line string) string {
	kind, word, _ := strings.Cut(line, " ")
	switch kind {
	case "key":
		return answerKey(router, word)
	case "frame":
		return answerFrame(router, word)
	}
	return "no such line"
}

func answerKey(router *squall.Router, word string) string {
	var root, second uint32
	if _, err := fmt.Sscanf(word, "%d:%d", &root, &second); err != nil {
		return "no key"
	}
	part, ok := router.Route(squall.Key(root, second))
	if !ok {
		return "no key"
	}
	return fmt.Sprint(part)
}

func answerFrame(router *squall.Router, word string) string {
	frame, err := hex.DecodeString(word)
	if err != nil {
		return "no hex digits"
	}
	if err := router.Feed(frame); err != nil {
		return fmt.Sprint("fault ", squall.StatusOf(err))
	}
	return "taken"
}
