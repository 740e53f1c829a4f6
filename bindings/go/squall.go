// Package squall says which partition to ask for a key while partitions move.
//
// A [Router] knows an old and a new partition plan, and takes reports of what was loaded where. It
// says for each key which partition to ask. A [View] is what a router said at one moment, for
// goroutines that only read. An [Errand] follows the replies of partitions until a key is found. A
// [Course] says which keys move, from which partition to which. A [Partition] holds keys, gives and loads
// them while they move, and replies to requests for them. A [Leader] begins courses and opens their
// sub-plans.
//
//	router, err := squall.OpenRouter(1, oldPlan, newPlan)
//	if err != nil {
//		return err
//	}
//	defer router.Close()
//	err = router.Loaded(1, 0, 3, squall.Key(2, 0), squall.Key(3, 0))
//	part, ok := router.Route(squall.Key(2, 7))
//
// The package is a thin layer over the C library of squall, which is proved. That answers are right and
// that each call ends rests on those proofs. The layer itself is tested and not proved.
//
// # Linking
//
// cgo finds the library by pkg-config. If it is not installed, PKG_CONFIG_PATH names the folder that
// tools/library makes. README.md has the commands, also those that make the archive a part of the program.
//
// # Goroutines
//
// Any number of goroutines may use one router, view, errand, course, partition or leader. Calls of one of
// these wait for each other. Those of a view do not: they only read it, and any number of them may do so at
// once.
//
// # Closing
//
// Close frees what the library has allocated. It may be called twice, and while other goroutines make
// calls. After it, each call returns [ErrClosed] or the answer for "none" that its documentation
// names. The same holds for a nil pointer. What is never closed is closed by a finalizer once it is
// unreachable. But the garbage collector does not see the library's memory, and may come late.
//
// # Memory
//
// The library allocates by malloc. If that fails, the call returns [ErrNoMemory] and has changed
// nothing. It keeps no pointer to Go memory. Byte slices and batches must not change while a call
// runs that takes them.
package squall

// #cgo pkg-config: squall
// #include "library.h"
import "C"

import "unsafe"

// Version is the version of the library that runs, such as "1.2.3".
func Version() string {
	return C.GoString(C.squall_version())
}

// empty is what the pointer to no bytes leads to, since the library takes no null pointer.
var empty [16]byte

// bytesOf is where the bytes are, and how many.
func bytesOf(bytes []byte) (*C.uint8_t, C.size_t) {
	if len(bytes) == 0 {
		return (*C.uint8_t)(unsafe.Pointer(&empty[0])), 0
	}
	return (*C.uint8_t)(unsafe.Pointer(&bytes[0])), C.size_t(len(bytes))
}
