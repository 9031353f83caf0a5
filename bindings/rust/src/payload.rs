//! What a message carries.
use std::rc::Rc;
use std::sync::Arc;

/// What a message carries: anything with a length in bytes. It stays with the `State` until the
/// message is done, and comes back in its completion. Nothing of it is copied, and only its length is
/// ever looked at. A broadcast shares one `Arc`.
pub trait Payload {
    /// How many bytes are sent. It has to be the same each time.
    fn length(&self) -> usize;
}

/// A message that is known by its length alone.
#[derive(Debug, Clone, Copy, PartialEq, Eq, Hash)]
pub struct Zeros(
    /// Its length in bytes.
    pub usize,
);

impl Payload for Zeros {
    fn length(&self) -> usize {
        self.0
    }
}

impl Payload for [u8] {
    fn length(&self) -> usize {
        self.len()
    }
}

impl Payload for str {
    fn length(&self) -> usize {
        self.len()
    }
}

impl<const N: usize> Payload for [u8; N] {
    fn length(&self) -> usize {
        N
    }
}

impl Payload for Vec<u8> {
    fn length(&self) -> usize {
        self.len()
    }
}

impl Payload for String {
    fn length(&self) -> usize {
        self.len()
    }
}

macro_rules! as_what_it_holds {
    ($($holder:ty),*) => {$(
        impl<T: Payload + ?Sized> Payload for $holder {
            fn length(&self) -> usize {
                (**self).length()
            }
        }
    )*};
}

as_what_it_holds!(&T, Box<T>, Rc<T>, Arc<T>);
