//! What errors are and say.

use squall::{Course, Error, FrameFault, PlanFault, Rank, Router};
use std::io;

const OLD: &[u8] = include_bytes!("../../../examples/old.json");
const NEW: &[u8] = include_bytes!("../../../examples/new.json");

fn key(root: u32) -> Rank {
    Rank::new(root, 0)
}

#[test]
fn faults_are_named() {
    let plan = |text: &str| Router::open(1, text.as_bytes(), NEW).err();
    assert_eq!(plan(""), Some(Error::OldPlan(PlanFault::Json)));
    assert_eq!(plan("{}"), Some(Error::OldPlan(PlanFault::Shape(None))));
    let open_ended = r#"{"plan":[{"part":1,"from":[0,0]}]}"#;
    assert_eq!(
        plan(open_ended),
        Some(Error::OldPlan(PlanFault::Shape(Some(0))))
    );
    let gap = br#"{"plan":[{"part":1,"from":[0,0],"to":[3,5]}]}"#;
    let fault = Router::open(1, OLD, gap).err().unwrap();
    assert_eq!(fault, Error::NewPlan(PlanFault::Gap(Rank::new(3, 5))));
    let words = "the new text is no plan: Gap 3:5: this key is in no range";
    assert_eq!(fault.to_string(), words);
    assert_eq!(Router::open(0, OLD, NEW).err(), Some(Error::Limit));
    let mut router = Router::open(1, OLD, NEW).unwrap();
    assert_eq!(router.loaded(1, 0, 3, key(2)..key(2)), Err(Error::Limit));
    assert_eq!(router.issued(2, gap), Err(fault));
    assert_eq!(router.feed(b"ST"), Err(Error::Frame(FrameFault::Magic)));
    assert_eq!(router.feed(b""), Err(Error::Failed));
    assert_eq!(router.repair().err(), Some(Error::NoDigest));
    assert_eq!(router.errand(Rank::END).err(), Some(Error::Limit));
}

#[test]
fn errors_of_the_library_are_errors_of_io() {
    let read = || -> io::Result<Course> { Ok(Course::open(1, OLD, b"")?) };
    let error = read().err().unwrap();
    assert_eq!(error.kind(), io::ErrorKind::InvalidData);
    let words = "the new text is no plan: Json: the bytes are no JSON, or no UTF-8";
    assert_eq!(error.to_string(), words);
}

#[test]
fn errors_say_what_the_library_says() {
    let texts = [
        (Error::NoMemory, "an allocation failed"),
        (
            Error::Limit,
            "a number or a rank is outside its limits, or the span has no keys",
        ),
        (
            Error::Failed,
            "the stream ended with a fault before, and takes no more bytes",
        ),
        (
            Error::TooLong,
            "a frame would have more bytes than it may have",
        ),
        (
            Error::NoDigest,
            "no digest was heard that could be answered",
        ),
        (Error::Full, "the router would hear of more than its limit"),
        (
            Error::Frame(FrameFault::Spare),
            "no frame: Spare: bytes are left in the body after its last item, or follow a whole frame",
        ),
        (Error::Unknown(8), "the status is not known: 8"),
    ];
    for (error, text) in texts {
        assert_eq!(error.to_string(), text);
    }
}
