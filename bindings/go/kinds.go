package squall

// #include "library.h"
import "C"

// kind is what the library does with all handles of one kind.
type kind[T any] struct {
	size    C.size_t               // of the room of a handle
	status  func(at *T) C.uint32_t // of the call that opened it
	faultAt func(at *T) C.uint64_t // where its last plan fault lies
	end     func(at *T)            // closes it, and frees its room
}

// noFaultAt is faultAt for handles whose calls take no plan.
func noFaultAt[T any](*T) C.uint64_t {
	return C.SQUALL_NO_PLACE
}

// check is the error of a status that a call with the handle has answered.
func (k *kind[T]) check(at *T, status C.uint32_t) error {
	if status == C.SQUALL_OK {
		return nil
	}
	return errorOf(uint32(status), uint64(k.faultAt(at)))
}

// open is the handle that a call opens in the room that it is given. After an error nothing is left of it.
func (k *kind[T]) open(call func(room *T)) (*T, error) {
	room := (*T)(C.calloc(1, k.size))
	if room == nil {
		return nil, ErrNoMemory
	}
	call(room)
	if err := k.check(room, k.status(room)); err != nil {
		k.end(room)
		return nil, err
	}
	return room, nil
}

// routers is what the library does with routers.
var routers = kind[C.squall_router]{
	size:    C.squall_router_size(),
	status:  func(at *C.squall_router) C.uint32_t { return C.squall_router_status(at) },
	faultAt: func(at *C.squall_router) C.uint64_t { return C.squall_router_fault_at(at) },
	end:     func(at *C.squall_router) { C.end_router(at) },
}

// views is what the library does with views.
var views = kind[C.squall_view]{
	size:    C.squall_view_size(),
	status:  func(at *C.squall_view) C.uint32_t { return C.squall_view_status(at) },
	faultAt: noFaultAt[C.squall_view],
	end:     func(at *C.squall_view) { C.end_view(at) },
}

// courses is what the library does with courses.
var courses = kind[C.squall_course]{
	size:    C.squall_course_size(),
	status:  func(at *C.squall_course) C.uint32_t { return C.squall_course_status(at) },
	faultAt: func(at *C.squall_course) C.uint64_t { return C.squall_course_fault_at(at) },
	end:     func(at *C.squall_course) { C.end_course(at) },
}

// errands is what the library does with errands. C.start_errand opens them.
var errands = kind[C.squall_errand]{end: func(at *C.squall_errand) { C.end_errand(at) }}

// partitions is what the library does with partitions.
var partitions = kind[C.squall_part]{
	size:    C.squall_part_size(),
	status:  func(at *C.squall_part) C.uint32_t { return C.squall_part_status(at) },
	faultAt: noFaultAt[C.squall_part],
	end:     func(at *C.squall_part) { C.end_part(at) },
}

// leaders is what the library does with leaders.
var leaders = kind[C.squall_leader]{
	size:    C.squall_leader_size(),
	status:  func(at *C.squall_leader) C.uint32_t { return C.squall_leader_status(at) },
	faultAt: func(at *C.squall_leader) C.uint64_t { return C.squall_leader_fault_at(at) },
	end:     func(at *C.squall_leader) { C.end_leader(at) },
}
