package squall

// #include "library.h"
import "C"

// Router says for each key which partition to ask, by an old and a new plan and the reports that it
// took. Reports may come in any order and more than once: routers that took the same reports say the
// same.
type Router struct {
	held   handle[C.squall_router]
	stream stream
}

// OpenRouter opens a router of the course `number`, from 1 on, which leads from the old plan to the new
// one. Nothing has been reported to it. The texts of the plans are JSON, as docs/FORMATS.md says.
//
// Errors: [ErrLimit] if the number is 0; a [PlanError] of the old text, or else of the new one, if it is
// no plan; [ErrNoMemory].
func OpenRouter(number uint32, oldPlan, newPlan []byte) (*Router, error) {
	return openFor(new(Router), &routers, func(room *C.squall_router) {
		oldAt, oldLen := bytesOf(oldPlan)
		newAt, newLen := bytesOf(newPlan)
		C.squall_router_open(C.uint32_t(number), oldAt, oldLen, newAt, newLen, room)
	})
}

// Close closes the router. Views, courses and errands of it go on. It always returns nil.
func (r *Router) Close() error {
	r.handle().close(r, func() { r.stream.unfed = nil })
	return nil
}

func (r *Router) handle() *handle[C.squall_router] {
	if r == nil {
		return nil
	}
	return &r.held
}

// Loaded takes the report that partition `part` has loaded the keys from lo on, below hi, in sub-plan
// `sub` of course `number`.
//
// Errors: [ErrLimit] if there is no such report: a number 0, a sub-plan or partition above 9999, a rank
// above [End], or no keys; [ErrNoMemory]; [ErrClosed].
func (r *Router) Loaded(number, sub uint32, part Part, lo, hi Rank) error {
	return r.handle().take(func(at *C.squall_router) C.uint32_t {
		return C.squall_router_loaded(at, C.uint32_t(number), C.uint32_t(sub), C.uint32_t(part), C.uint64_t(lo), C.uint64_t(hi))
	})
}

// Done takes the report that partition `part` has all the keys that sub-plan `sub` brings it. Errors
// are as those of [Router.Loaded].
func (r *Router) Done(number, sub uint32, part Part) error {
	return r.handle().take(func(at *C.squall_router) C.uint32_t {
		return C.squall_router_done(at, C.uint32_t(number), C.uint32_t(sub), C.uint32_t(part))
	})
}

// Opened takes the report that sub-plan `sub` has been opened, and all those before it. This changes no
// route. Errors are as those of [Router.Loaded].
func (r *Router) Opened(number, sub uint32) error {
	return r.handle().take(func(at *C.squall_router) C.uint32_t {
		return C.squall_router_opened(at, C.uint32_t(number), C.uint32_t(sub))
	})
}

// Issued takes the report that course `number` leads from the new plan of [OpenRouter] to this one.
// Routes are by the course of the greatest number for which one pair of plans is known.
//
// Errors: [ErrLimit] if the number is 0; a [PlanError] if the text is no plan; [ErrNoMemory];
// [ErrClosed].
func (r *Router) Issued(number uint32, plan []byte) error {
	return r.handle().take(func(at *C.squall_router) C.uint32_t {
		text, size := bytesOf(plan)
		return C.squall_router_issued(at, C.uint32_t(number), text, size)
	})
}

// Route is the partition to ask for the key. It is [Nowhere] and false if the rank is no key's, or if
// the router is closed.
func (r *Router) Route(key Rank) (Part, bool) {
	part := Nowhere
	r.handle().use(func(at *C.squall_router) { part = Part(C.squall_router_route(at, C.uint64_t(key))) })
	return part, part != Nowhere
}

// Legs are the legs of the keys from lo on, below hi, by rising key. There are none if there are no
// keys, if a rank is above [End], or if the router is closed.
func (r *Router) Legs(lo, hi Rank) []Leg {
	var legs []Leg
	r.handle().use(func(at *C.squall_router) {
		legs = allLegs(lo, hi, func(lo Rank, out *C.squall_leg) C.size_t {
			return C.squall_router_legs(at, C.uint64_t(lo), C.uint64_t(hi), out, atOnce)
		})
	})
	return legs
}

// Number is the number of the course by which routes are. It is 0 if the router is closed.
func (r *Router) Number() uint32 {
	var number uint32
	r.handle().use(func(at *C.squall_router) { number = uint32(C.squall_router_number(at)) })
	return number
}

// View opens a view of what the router says now. This copies the router's table.
//
// Errors: [ErrNoMemory]; [ErrClosed].
func (r *Router) View() (*View, error) {
	return with(r.handle(), func(at *C.squall_router) (*View, error) {
		return openView(func(room *C.squall_view) { C.squall_view_open(at, room) })
	})
}

// Errand opens an errand for the key, which begins at the partition to which the router routes it now.
//
// Errors: [ErrLimit] if the rank is no key's; [ErrNoMemory]; [ErrClosed].
func (r *Router) Errand(key Rank) (*Errand, error) {
	return with(r.handle(), func(at *C.squall_router) (*Errand, error) {
		return newErrand(C.start_errand(at, nil, C.uint64_t(key)))
	})
}
