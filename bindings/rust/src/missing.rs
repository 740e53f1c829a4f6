//! Refuses to build without a library, by the reason of `build.rs`.
//!
//! A constant of a generic type is evaluated only when code is made of it. So `cargo check`, `cargo doc`
//! and `cargo clippy` pass. The linker would name no more than a library that it does not find.

struct Library<T>(std::marker::PhantomData<T>);

impl<T> Library<T> {
    const IS_HERE: () = panic!("{}", env!("SQUALL_MISSING"));
}

fn refuse<T>() {
    Library::<T>::IS_HERE
}

#[used]
static REFUSES: fn() = refuse::<()>;
