package squall_test

import (
	"fmt"
	"os"
	"strings"
	"testing"

	squall "sumelgos.example/squall/bindings/go"
)

func TestKeysOfRows(t *testing.T) {
	vectors, err := os.ReadFile("../../integrations/keymap.txt")
	succeeds(t, err)
	count := 0
	for _, line := range strings.Split(strings.TrimSpace(string(vectors)), "\n") {
		if strings.HasPrefix(line, "#") {
			continue
		}
		words := strings.Fields(line)
		equals(t, squall.KeyOf(unhex(strings.TrimLeft(words[0], "-"))).String(), words[1])
		count++
	}
	if count < 50 {
		t.Errorf("there are %d vectors", count)
	}
	equals(t, squall.KeyOf(nil), squall.KeyOf([]byte{}))
}

func ExampleKeyOf() {
	fmt.Println(squall.KeyOf([]byte("2:7:cart")))
	fmt.Println(squall.KeyOf([]byte("cart{17}")) == squall.KeyOf([]byte("basket{17}")))
	// Output:
	// 2:7
	// true
}
