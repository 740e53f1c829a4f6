package squall

// #include "library.h"
import "C"

// NoLimit is no limit, for the numbers of [Router.Limit].
const NoLimit uint64 = C.SQUALL_NO_LIMIT

// Limit sets the most that the router may tell after a frame, as [Router.Counts] counts it. From then on
// [Router.Feed], [Router.ReadFrom] and [Router.Hear] return [ErrFull], and nothing changes, if the router would
// tell more with the deltas that the bytes bring. That is so too if it tells more already, and they bring
// nothing new.
//
// Digests are never refused, and the reports of Loaded, Done, Opened and Issued are not limited. A number that
// is [NoLimit] is not limited, and one that is 0 admits none. If all four are NoLimit, the limit is taken away.
// At first there is none.
//
// Errors: [ErrClosed].
func (r *Router) Limit(most Counts) error {
	return r.handle().take(func(at *C.squall_router) C.uint32_t {
		return C.squall_router_limit(at,
			C.uint64_t(most.Cells), C.uint64_t(most.Spans), C.uint64_t(most.Opened), C.uint64_t(most.Issues))
	})
}

// Taken is how many frames the router has taken, boards and digests. It stops at the greatest number, and is 0
// if the router is closed.
func (r *Router) Taken() uint64 {
	var taken uint64
	r.handle().use(func(at *C.squall_router) { taken = uint64(C.squall_router_taken(at)) })
	return taken
}
