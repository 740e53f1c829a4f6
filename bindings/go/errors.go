package squall

// #include "library.h"
import "C"

import (
	"errors"
	"fmt"
	"strings"
)

// Error is a reason without further detail why a call did not do what it was asked for. Its number is
// the library's status. Plans and frames have errors of their own: [PlanError] and [FrameFault]. So has a
// leader that waits for a partition: [NotDoneError].
type Error uint32

// If the documentation of a call does not say otherwise, it has changed nothing when it returns one of
// these.
const (
	// ErrNoMemory says that an allocation failed. The same call may be tried again.
	ErrNoMemory Error = C.SQUALL_NO_MEMORY
	// ErrLimit says that a number or a rank lies outside its limits, or that a span has no keys.
	ErrLimit Error = C.SQUALL_LIMIT
	// ErrClosed says that the router, view, course, errand, partition or leader was closed, or is nil.
	ErrClosed Error = C.SQUALL_CLOSED
	// ErrFailed says that a frame fault came earlier, so that the stream is at its end.
	ErrFailed Error = C.SQUALL_FAILED
	// ErrTooLong says that a frame would have more bytes than it may have: that of a digest, which is not cut, or
	// of a single report.
	ErrTooLong Error = C.SQUALL_TOO_LONG
	// ErrNoDigest says that no digest was heard that could be answered.
	ErrNoDigest Error = C.SQUALL_NO_DIGEST
	// ErrFull says that a router would tell more than [Router.Limit] allows.
	ErrFull Error = C.SQUALL_FULL
)

// Why a partition does not give, load or finish.
const (
	// ErrNotOpen says that the sub-plan is not opened, as far as the partition knows.
	ErrNotOpen Error = C.SQUALL_NOT_OPEN
	// ErrNothingLeft says that the partition holds no key that goes out in the sub-plan opened last.
	ErrNothingLeft Error = C.SQUALL_NOTHING_LEFT
	// ErrZeroMax says that no key was asked for.
	ErrZeroMax Error = C.SQUALL_ZERO_MAX
	// ErrNotOutgoing says that the key does not go out in the sub-plan opened last.
	ErrNotOutgoing Error = C.SQUALL_NOT_OUTGOING
	// ErrGiven says that the key was given under this course before.
	ErrGiven Error = C.SQUALL_GIVEN
	// ErrNotHeld says that the key goes out, and is neither given nor held.
	ErrNotHeld Error = C.SQUALL_NOT_HELD
	// ErrStranger says that the course does not bring these keys to this partition in this way.
	ErrStranger Error = C.SQUALL_STRANGER
	// ErrNotAll says that keys are missing that come in.
	ErrNotAll Error = C.SQUALL_NOT_ALL
	// ErrNothingDue says that no key comes in, in that sub-plan.
	ErrNothingDue Error = C.SQUALL_NOTHING_DUE
	// ErrEnded says that the partition gives no more in its newest course, which [Partition.CloseCourse] closed.
	ErrEnded Error = C.SQUALL_ENDED
)

// Why a leader does not go on.
const (
	// ErrRunning says that the course begun last is not over.
	ErrRunning Error = C.SQUALL_RUNNING
	// ErrNoNumber says that the greatest number of a course is used.
	ErrNoNumber Error = C.SQUALL_NO_NUMBER
	// ErrIdle says that no course is begun.
	ErrIdle Error = C.SQUALL_IDLE
	// ErrNotDone says that a partition has not reported that it has all keys of a sub-plan. A
	// [NotDoneError] holds it, and says which partition and which sub-plan.
	ErrNotDone Error = C.SQUALL_NOT_DONE
	// ErrNoMore says that all sub-plans are opened, and that the last one is done.
	ErrNoMore Error = C.SQUALL_NO_MORE
)

// ErrBusy says that a ReadFrom is reading the stream of the router, the partition or the leader, so that other
// bytes would come between those of its frames. Nothing was taken. It is an error of this package and has no
// status.
var ErrBusy = errors.New("squall: the stream is being read")

// message is what the library says of a status.
func message(status uint32) string {
	return C.GoString(C.squall_message(C.uint32_t(status)))
}

// meaning is the same of a fault of a plan or a frame, without the words before it.
func meaning(status uint32) string {
	text := message(status)
	if _, means, ok := strings.Cut(text, ": "); ok {
		return means
	}
	return text
}

// noStatus is a number that is no status, and never one of another version of the library.
const noStatus = 1<<32 - 1

// Error is the reason as a text of the library. If that does not know it, the number follows.
func (e Error) Error() string {
	text := message(uint32(e))
	if text == message(noStatus) {
		text = fmt.Sprintf("%s: %d", text, uint32(e))
	}
	return "squall: " + text
}

// FrameFault is the error of bytes that are no frame. docs/FORMATS.md has the bytes of a frame.
type FrameFault uint32

const (
	// FrameMagic says that the first two bytes are not those of a frame.
	FrameMagic FrameFault = C.SQUALL_FRAME_MAGIC
	// FrameVersion says that the version is not known.
	FrameVersion FrameFault = C.SQUALL_FRAME_VERSION
	// FrameKind says that the kind is neither that of a delta nor that of a digest.
	FrameKind FrameFault = C.SQUALL_FRAME_KIND
	// FrameTooLong says that the body is to have more than 1,048,576 bytes.
	FrameTooLong FrameFault = C.SQUALL_FRAME_TOO_LONG
	// FrameShort says that the bytes end within the frame. A stream waits for more instead.
	FrameShort FrameFault = C.SQUALL_FRAME_SHORT
	// FrameCount says that the body has too few bytes left for its next item.
	FrameCount FrameFault = C.SQUALL_FRAME_COUNT
	// FrameRange says that a field lies outside its limits, or that a cell says nothing.
	FrameRange FrameFault = C.SQUALL_FRAME_RANGE
	// FrameOrder says that an item does not come after the one before it.
	FrameOrder FrameFault = C.SQUALL_FRAME_ORDER
	// FrameSpare says that bytes are left in the body, or follow a whole frame.
	FrameSpare FrameFault = C.SQUALL_FRAME_SPARE
)

var frameNames = map[FrameFault]string{
	FrameMagic:   "Magic",
	FrameVersion: "Version",
	FrameKind:    "Kind",
	FrameTooLong: "TooLong",
	FrameShort:   "Short",
	FrameCount:   "Count",
	FrameRange:   "Range",
	FrameOrder:   "Order",
	FrameSpare:   "Spare",
}

// Error names the fault as docs/FORMATS.md does, and says what it means.
func (f FrameFault) Error() string {
	return "squall: no frame: " + frameNames[f] + ": " + meaning(uint32(f))
}

// PlanFault says why a text is no plan. A [PlanError] holds one, and says where it lies.
type PlanFault uint32

const (
	// PlanJSON says that the bytes are no JSON, or no UTF-8.
	PlanJSON PlanFault = C.SQUALL_PLAN_JSON
	// PlanShape says that the text is no object with an array `plan`, or that an entry lacks its form.
	PlanShape PlanFault = C.SQUALL_PLAN_SHAPE
	// PlanBadPart says that the partition of an entry is above 9999.
	PlanBadPart PlanFault = C.SQUALL_PLAN_BAD_PART
	// PlanBadBound says that a pair of an entry is no bound.
	PlanBadBound PlanFault = C.SQUALL_PLAN_BAD_BOUND
	// PlanEmptyRange says that the `from` of an entry is not below its `to`.
	PlanEmptyRange PlanFault = C.SQUALL_PLAN_EMPTY_RANGE
	// PlanTooMany says that there are more than 4096 entries.
	PlanTooMany PlanFault = C.SQUALL_PLAN_TOO_MANY
	// PlanOverlap says that some key is in two ranges.
	PlanOverlap PlanFault = C.SQUALL_PLAN_OVERLAP
	// PlanGap says that some key is in no range.
	PlanGap PlanFault = C.SQUALL_PLAN_GAP
)

var planNames = map[PlanFault]string{
	PlanJSON:       "Json",
	PlanShape:      "Shape",
	PlanBadPart:    "BadPart",
	PlanBadBound:   "BadBound",
	PlanEmptyRange: "EmptyRange",
	PlanTooMany:    "TooMany",
	PlanOverlap:    "Overlap",
	PlanGap:        "Gap",
}

// Error names the fault as docs/FORMATS.md does, and says what it means.
func (f PlanFault) Error() string {
	return "squall: no plan: " + planNames[f] + ": " + meaning(uint32(f))
}

// PlanError is the error of a text that is no plan. errors.Is compares it with a [PlanFault].
type PlanError struct {
	// Fault says why the text is no plan.
	Fault PlanFault
	// New says that it is the text of the new plan, and not that of the old one.
	New bool
	// Entry is the index of the entry at fault, from 0, or -1 if the fault is of no entry.
	Entry int
	// Key is the least key in two ranges or in none, of PlanOverlap and PlanGap, and else 0.
	Key Rank
}

// Error names the text, the fault and its place, and says what the fault means.
func (e *PlanError) Error() string {
	text := "old"
	if e.New {
		text = "new"
	}
	return fmt.Sprintf("squall: the %s text is no plan: %s%s: %s", text, planNames[e.Fault], e.place(), meaning(uint32(e.Fault)))
}

// place is the entry or the key at fault, after a space, and no text if there is none.
func (e *PlanError) place() string {
	switch {
	case e.Entry >= 0:
		return fmt.Sprintf(" %d", e.Entry)
	case e.Fault == PlanOverlap || e.Fault == PlanGap:
		return fmt.Sprintf(" %v", e.Key)
	}
	return ""
}

// Unwrap is the fault.
func (e *PlanError) Unwrap() error {
	return e.Fault
}

// NotDoneError is the error of a leader that waits for a partition, which has not reported that it has all
// keys of a sub-plan. errors.Is compares it with [ErrNotDone].
type NotDoneError struct {
	// Part is the least partition that has not reported.
	Part Part
	// Sub is the sub-plan, which was opened last.
	Sub uint32
}

// Error names the partition and the sub-plan.
func (e *NotDoneError) Error() string {
	return fmt.Sprintf("squall: partition %d has not reported that it has all keys of sub-plan %d", e.Part, e.Sub)
}

// Unwrap is ErrNotDone.
func (e *NotDoneError) Unwrap() error {
	return ErrNotDone
}

// newPlan is how far the statuses of a new plan's faults are above those of an old one's.
const newPlan = C.SQUALL_NEW_PLAN_JSON - C.SQUALL_PLAN_JSON

// StatusOf is the library's status of an error of this package, one of enum squall_status in squall.h.
// It is 0 for all other errors, and for nil.
func StatusOf(err error) uint32 {
	var plain Error
	var frame FrameFault
	var fault PlanFault
	var plan *PlanError
	switch {
	case errors.As(err, &plain):
		return uint32(plain)
	case errors.As(err, &frame):
		return uint32(frame)
	case errors.As(err, &plan) && plan.New:
		return uint32(plan.Fault) + newPlan
	case errors.As(err, &fault):
		return uint32(fault)
	}
	return 0
}

// errorOf is the error of a status, if it is one. `place` is where the last plan fault lies.
func errorOf(status uint32, place uint64) error {
	switch {
	case status == C.SQUALL_OK:
		return nil
	case C.SQUALL_PLAN_JSON <= status && status <= C.SQUALL_PLAN_GAP:
		return planError(PlanFault(status), false, place)
	case C.SQUALL_NEW_PLAN_JSON <= status && status <= C.SQUALL_NEW_PLAN_GAP:
		return planError(PlanFault(status-newPlan), true, place)
	case C.SQUALL_FRAME_MAGIC <= status && status <= C.SQUALL_FRAME_SPARE:
		return FrameFault(status)
	}
	return Error(status)
}

func planError(fault PlanFault, isNew bool, place uint64) error {
	e := &PlanError{Fault: fault, New: isNew, Entry: -1}
	switch {
	case fault == PlanOverlap || fault == PlanGap:
		e.Key = Rank(place)
	case place != C.SQUALL_NO_PLACE:
		e.Entry = int(place)
	}
	return e
}
