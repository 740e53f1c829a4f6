//! The functions of `squall.h`, which says their rules and answers.

use std::ffi::c_char;

use crate::course::{Move, Place};
use crate::key::{Leg, Span};
use crate::part::Chunk;
use crate::told::Counts;

/// What is in the room of a router: nobody looks into it here.
#[repr(C)]
pub(crate) struct RawRouter {
    hidden: [u8; 0],
}

/// What is in the room of a view.
#[repr(C)]
pub(crate) struct RawView {
    hidden: [u8; 0],
}

/// What is in the room of an errand.
#[repr(C)]
pub(crate) struct RawErrand {
    hidden: [u8; 0],
}

/// What is in the room of a course.
#[repr(C)]
pub(crate) struct RawCourse {
    hidden: [u8; 0],
}

/// What is in the room of a partition.
#[repr(C)]
pub(crate) struct RawPart {
    hidden: [u8; 0],
}

/// What is in the room of a leader.
#[repr(C)]
pub(crate) struct RawLeader {
    hidden: [u8; 0],
}

/// The reply of a partition, as numbers.
#[repr(C)]
#[derive(Clone, Copy, Default)]
pub(crate) struct RawAnswer {
    pub(crate) reply: u32,
    pub(crate) part: u32,
    pub(crate) number: u32,
}

/// The status of a room in which nothing was opened.
pub(crate) const CLOSED: u32 = 3;
/// The status of a load if each key of the chunk was loaded before.
pub(crate) const LOADED_BEFORE: u32 = 80;
/// The status of a leader that waits for a partition.
pub(crate) const NOT_DONE: u32 = 94;
/// The answer where there is no partition.
pub(crate) const NOWHERE: u32 = u32::MAX;

unsafe extern "C" {
    pub(crate) fn squall_key_of(bytes: *const u8, len: usize) -> u64;
    pub(crate) safe fn squall_router_size() -> usize;
    pub(crate) fn squall_router_open(
        number: u32,
        old_plan: *const u8,
        old_len: usize,
        new_plan: *const u8,
        new_len: usize,
        room: *mut RawRouter,
    );
    pub(crate) fn squall_router_status(router: *const RawRouter) -> u32;
    pub(crate) fn squall_router_fault_at(router: *const RawRouter) -> u64;
    pub(crate) fn squall_router_loaded(
        router: *mut RawRouter,
        number: u32,
        sub: u32,
        part: u32,
        lo: u64,
        hi: u64,
    ) -> u32;
    pub(crate) fn squall_router_done(
        router: *mut RawRouter,
        number: u32,
        sub: u32,
        part: u32,
    ) -> u32;
    pub(crate) fn squall_router_opened(router: *mut RawRouter, number: u32, sub: u32) -> u32;
    pub(crate) fn squall_router_issued(
        router: *mut RawRouter,
        number: u32,
        plan: *const u8,
        len: usize,
    ) -> u32;
    pub(crate) fn squall_router_feed(router: *mut RawRouter, bytes: *const u8, len: usize) -> u32;
    pub(crate) fn squall_router_waiting(router: *const RawRouter) -> usize;
    pub(crate) fn squall_router_hear(router: *mut RawRouter, frame: *const u8, len: usize) -> u32;
    pub(crate) fn squall_router_limit(
        router: *mut RawRouter,
        cells: u64,
        spans: u64,
        opened: u64,
        issues: u64,
    ) -> u32;
    pub(crate) fn squall_router_taken(router: *const RawRouter) -> u64;
    pub(crate) fn squall_router_route(router: *const RawRouter, rank: u64) -> u32;
    pub(crate) fn squall_router_legs(
        router: *const RawRouter,
        lo: u64,
        hi: u64,
        out: *mut Leg,
        room: usize,
    ) -> usize;
    pub(crate) fn squall_router_number(router: *const RawRouter) -> u32;
    pub(crate) fn squall_router_gather_board(router: *mut RawRouter, limit: usize) -> u32;
    pub(crate) fn squall_router_gather_digest(router: *mut RawRouter, limit: usize) -> u32;
    pub(crate) fn squall_router_gather_repair(router: *mut RawRouter, limit: usize) -> u32;
    pub(crate) fn squall_router_frame(router: *mut RawRouter, out: *mut u8, room: usize) -> usize;
    pub(crate) fn squall_router_clashed(router: *const RawRouter) -> usize;
    pub(crate) fn squall_router_counts(
        router: *const RawRouter,
        out: *mut Counts,
        room: usize,
    ) -> usize;
    pub(crate) fn squall_router_status_text(
        router: *const RawRouter,
        out: *mut u8,
        room: usize,
    ) -> usize;
    pub(crate) fn squall_router_picture(
        router: *const RawRouter,
        out: *mut u8,
        room: usize,
    ) -> usize;
    pub(crate) fn squall_router_close(router: *mut RawRouter);

    pub(crate) safe fn squall_view_size() -> usize;
    pub(crate) fn squall_view_open(router: *const RawRouter, room: *mut RawView);
    pub(crate) fn squall_view_again(view: *const RawView, room: *mut RawView);
    pub(crate) fn squall_view_status(view: *const RawView) -> u32;
    pub(crate) fn squall_view_route(view: *const RawView, rank: u64) -> u32;
    pub(crate) fn squall_view_routes(
        view: *const RawView,
        ranks: *const u64,
        count: usize,
        parts: *mut u32,
        room: usize,
    ) -> usize;
    pub(crate) fn squall_view_locate(
        view: *const RawView,
        ranks: *const u64,
        count: usize,
        out: *mut Place,
        room: usize,
    ) -> usize;
    pub(crate) fn squall_view_legs(
        view: *const RawView,
        lo: u64,
        hi: u64,
        out: *mut Leg,
        room: usize,
    ) -> usize;
    pub(crate) fn squall_view_number(view: *const RawView) -> u32;
    pub(crate) fn squall_view_changes(
        before: *const RawView,
        after: *const RawView,
        lo: u64,
        hi: u64,
        out: *mut Span,
        room: usize,
    ) -> usize;
    pub(crate) fn squall_view_close(view: *mut RawView);

    pub(crate) safe fn squall_course_size() -> usize;
    pub(crate) fn squall_course_open(
        number: u32,
        old_plan: *const u8,
        old_len: usize,
        new_plan: *const u8,
        new_len: usize,
        room: *mut RawCourse,
    );
    pub(crate) fn squall_course_newest(router: *const RawRouter, room: *mut RawCourse);
    pub(crate) fn squall_course_first(router: *const RawRouter, room: *mut RawCourse);
    pub(crate) fn squall_course_status(course: *const RawCourse) -> u32;
    pub(crate) fn squall_course_fault_at(course: *const RawCourse) -> u64;
    pub(crate) fn squall_course_number(course: *const RawCourse) -> u32;
    pub(crate) fn squall_course_subplans(course: *const RawCourse) -> u32;
    pub(crate) fn squall_course_moves(
        course: *const RawCourse,
        from: usize,
        out: *mut Move,
        room: usize,
    ) -> usize;
    pub(crate) fn squall_course_old(
        course: *const RawCourse,
        from: usize,
        out: *mut Leg,
        room: usize,
    ) -> usize;
    pub(crate) fn squall_course_new(
        course: *const RawCourse,
        from: usize,
        out: *mut Leg,
        room: usize,
    ) -> usize;
    pub(crate) fn squall_course_receivers(
        course: *const RawCourse,
        sub: u32,
        from: usize,
        out: *mut u32,
        room: usize,
    ) -> usize;
    pub(crate) fn squall_course_old_text(
        course: *const RawCourse,
        out: *mut u8,
        room: usize,
    ) -> usize;
    pub(crate) fn squall_course_new_text(
        course: *const RawCourse,
        out: *mut u8,
        room: usize,
    ) -> usize;
    pub(crate) fn squall_course_left(
        course: *const RawCourse,
        loaded: *const Span,
        count: usize,
        out: *mut u8,
        room: usize,
    ) -> usize;
    pub(crate) fn squall_course_frame(course: *const RawCourse, out: *mut u8, room: usize)
    -> usize;
    pub(crate) fn squall_course_close(course: *mut RawCourse);

    pub(crate) fn squall_frame_loaded(
        number: u32,
        sub: u32,
        part: u32,
        lo: u64,
        hi: u64,
        out: *mut u8,
        room: usize,
    ) -> usize;
    pub(crate) fn squall_frame_done(
        number: u32,
        sub: u32,
        part: u32,
        out: *mut u8,
        room: usize,
    ) -> usize;
    pub(crate) fn squall_frame_opened(number: u32, sub: u32, out: *mut u8, room: usize) -> usize;

    pub(crate) safe fn squall_errand_size() -> usize;
    pub(crate) fn squall_errand_start(router: *const RawRouter, rank: u64, room: *mut RawErrand);
    pub(crate) fn squall_errand_start_at(view: *const RawView, rank: u64, room: *mut RawErrand);
    pub(crate) fn squall_errand_status(errand: *const RawErrand) -> u32;
    pub(crate) fn squall_errand_asked(errand: *const RawErrand) -> u32;
    pub(crate) fn squall_errand_number(errand: *const RawErrand) -> u32;
    pub(crate) fn squall_errand_heed(
        errand: *mut RawErrand,
        reply: u32,
        part: u32,
        number: u32,
    ) -> u32;
    pub(crate) fn squall_errand_close(errand: *mut RawErrand);

    pub(crate) safe fn squall_part_size() -> usize;
    pub(crate) fn squall_part_open(id: u32, course: *const RawCourse, room: *mut RawPart);
    pub(crate) fn squall_part_status(part: *const RawPart) -> u32;
    pub(crate) fn squall_part_feed(part: *mut RawPart, bytes: *const u8, len: usize) -> u32;
    pub(crate) fn squall_part_waiting(part: *const RawPart) -> usize;
    pub(crate) fn squall_part_hear(part: *mut RawPart, frame: *const u8, len: usize) -> u32;
    pub(crate) fn squall_part_give(part: *mut RawPart, max: u64, out: *mut Chunk) -> u32;
    pub(crate) fn squall_part_give_at(part: *mut RawPart, rank: u64, out: *mut Chunk) -> u32;
    pub(crate) fn squall_part_load(part: *mut RawPart, chunk: *const Chunk) -> u32;
    pub(crate) fn squall_part_fresh(
        part: *const RawPart,
        chunk: *const Chunk,
        from: u64,
        out: *mut Span,
    ) -> u32;
    pub(crate) fn squall_part_finish(part: *mut RawPart, sub: u32) -> u32;
    pub(crate) fn squall_part_close_course(part: *mut RawPart) -> u32;
    pub(crate) fn squall_part_course_closed(part: *const RawPart, number: u32) -> u32;
    pub(crate) fn squall_part_serve(
        part: *const RawPart,
        rank: u64,
        after: u32,
        out: *mut RawAnswer,
    ) -> u32;
    pub(crate) fn squall_part_held(
        part: *const RawPart,
        from: usize,
        out: *mut Span,
        room: usize,
    ) -> usize;
    pub(crate) fn squall_part_given(
        part: *const RawPart,
        number: u32,
        from: usize,
        out: *mut Span,
        room: usize,
    ) -> usize;
    pub(crate) fn squall_part_loaded(
        part: *const RawPart,
        number: u32,
        from: usize,
        out: *mut Span,
        room: usize,
    ) -> usize;
    pub(crate) fn squall_part_gather_board(part: *mut RawPart, limit: usize) -> u32;
    pub(crate) fn squall_part_gather_digest(part: *mut RawPart, limit: usize) -> u32;
    pub(crate) fn squall_part_gather_repair(part: *mut RawPart, limit: usize) -> u32;
    pub(crate) fn squall_part_frame(part: *mut RawPart, out: *mut u8, room: usize) -> usize;
    pub(crate) fn squall_part_close(part: *mut RawPart);

    pub(crate) safe fn squall_leader_size() -> usize;
    pub(crate) fn squall_leader_open(plan: *const u8, len: usize, last: u32, room: *mut RawLeader);
    pub(crate) fn squall_leader_resume(course: *const RawCourse, room: *mut RawLeader);
    pub(crate) fn squall_leader_status(leader: *const RawLeader) -> u32;
    pub(crate) fn squall_leader_fault_at(leader: *const RawLeader) -> u64;
    pub(crate) fn squall_leader_feed(leader: *mut RawLeader, bytes: *const u8, len: usize) -> u32;
    pub(crate) fn squall_leader_waiting(leader: *const RawLeader) -> usize;
    pub(crate) fn squall_leader_hear(leader: *mut RawLeader, frame: *const u8, len: usize) -> u32;
    pub(crate) fn squall_leader_begin(leader: *mut RawLeader, plan: *const u8, len: usize) -> u32;
    pub(crate) fn squall_leader_begin_from(
        leader: *mut RawLeader,
        old_plan: *const u8,
        old_len: usize,
        new_plan: *const u8,
        new_len: usize,
    ) -> u32;
    pub(crate) fn squall_leader_course(leader: *const RawLeader, room: *mut RawCourse);
    pub(crate) fn squall_leader_open_next(
        leader: *mut RawLeader,
        out: *mut u32,
        room: usize,
    ) -> u32;
    pub(crate) fn squall_leader_finished(leader: *const RawLeader) -> u32;
    pub(crate) fn squall_leader_gather_board(leader: *mut RawLeader, limit: usize) -> u32;
    pub(crate) fn squall_leader_gather_digest(leader: *mut RawLeader, limit: usize) -> u32;
    pub(crate) fn squall_leader_gather_repair(leader: *mut RawLeader, limit: usize) -> u32;
    pub(crate) fn squall_leader_frame(leader: *mut RawLeader, out: *mut u8, room: usize) -> usize;
    pub(crate) fn squall_leader_close(leader: *mut RawLeader);

    pub(crate) safe fn squall_message(status: u32) -> *const c_char;
    pub(crate) safe fn squall_version() -> *const c_char;
}
