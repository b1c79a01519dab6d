//! A stand-in for the crate `archery`: only what rpds's red-black tree map uses, over `std`'s `Rc` and `Arc`.
//!
//! One thing is added. rpds's nodes are private, and the `Debug` that rpds derives is the only sight of them.
//! Inside [`with_addresses`] the `Debug` of a pointer says where it points, before what stands there, so that a
//! node shared by two maps can be told from a copy of it. Outside, it prints what stands there and nothing else.
#![forbid(unsafe_code)]

use std::borrow::Borrow;
use std::cell::Cell;
use std::fmt::{self, Debug, Formatter};
use std::ops::Deref;
use std::rc::Rc;
use std::sync::Arc;

/// Which of `std`'s counted pointers a [`SharedPointer`] is made of.
pub trait SharedPointerKind: Sized {
    type Pointer<T>: Clone + Deref<Target = T>;

    fn new<T>(value: T) -> Self::Pointer<T>;

    fn make_mut<T: Clone>(pointer: &mut Self::Pointer<T>) -> &mut T;
}

/// Pointers by `Rc`.
#[derive(Debug)]
pub struct RcK;

impl SharedPointerKind for RcK {
    type Pointer<T> = Rc<T>;

    fn new<T>(value: T) -> Rc<T> {
        Rc::new(value)
    }

    fn make_mut<T: Clone>(pointer: &mut Rc<T>) -> &mut T {
        Rc::make_mut(pointer)
    }
}

/// Pointers by `Arc`.
#[derive(Debug)]
pub struct ArcTK;

impl SharedPointerKind for ArcTK {
    type Pointer<T> = Arc<T>;

    fn new<T>(value: T) -> Arc<T> {
        Arc::new(value)
    }

    fn make_mut<T: Clone>(pointer: &mut Arc<T>) -> &mut T {
        Arc::make_mut(pointer)
    }
}

/// A counted pointer of the kind `P`.
pub struct SharedPointer<T, P: SharedPointerKind>(P::Pointer<T>);

impl<T, P: SharedPointerKind> SharedPointer<T, P> {
    pub fn new(value: T) -> SharedPointer<T, P> {
        SharedPointer(P::new(value))
    }

    pub fn as_ptr(this: &SharedPointer<T, P>) -> *const T {
        &**this
    }

    /// What is pointed to, to be changed; where others point there too, a copy of it takes its place first.
    pub fn make_mut(this: &mut SharedPointer<T, P>) -> &mut T
    where
        T: Clone,
    {
        P::make_mut(&mut this.0)
    }
}

impl<T, P: SharedPointerKind> Clone for SharedPointer<T, P> {
    fn clone(&self) -> SharedPointer<T, P> {
        SharedPointer(self.0.clone())
    }
}

impl<T, P: SharedPointerKind> Deref for SharedPointer<T, P> {
    type Target = T;

    fn deref(&self) -> &T {
        &self.0
    }
}

impl<T, P: SharedPointerKind> Borrow<T> for SharedPointer<T, P> {
    fn borrow(&self) -> &T {
        self
    }
}

thread_local! {
    static ADDRESSES: Cell<bool> = const { Cell::new(false) };
}

/// Does the work, in which the `Debug` of a pointer prints `@`, its address in hexadecimal digits and a space first.
pub fn with_addresses<R>(work: impl FnOnce() -> R) -> R {
    let before = ADDRESSES.replace(true);
    let result = work();
    ADDRESSES.set(before);
    result
}

impl<T: Debug, P: SharedPointerKind> Debug for SharedPointer<T, P> {
    fn fmt(&self, f: &mut Formatter<'_>) -> fmt::Result {
        if ADDRESSES.get() {
            write!(f, "@{:x} ", SharedPointer::as_ptr(self).addr())?;
        }
        (**self).fmt(f)
    }
}
