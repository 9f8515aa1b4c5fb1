//! The types that a component can hold.

use std::num::{
    NonZeroI16, NonZeroI32, NonZeroI64, NonZeroI8, NonZeroIsize, NonZeroU16, NonZeroU32, NonZeroU64, NonZeroU8,
    NonZeroUsize,
};
use std::time::Duration;

/// A type whose values a component can hold: each has a word of 64 bits.
///
/// A program implements it for types of its own, such as an enum or a struct of a few small fields:
///
/// ```
/// use partial_door::{Layout, Word};
///
/// #[derive(Clone, Copy, Debug, PartialEq)]
/// enum State {
///     Idle,
///     Running { job: u32 },
/// }
///
/// impl Word for State {
///     fn to_word(self) -> u64 {
///         match self {
///             State::Idle => 0,
///             State::Running { job } => 1 << 32 | u64::from(job),
///         }
///     }
///
///     fn from_word(word: u64) -> State {
///         match word >> 32 {
///             0 => State::Idle,
///             _ => State::Running { job: word as u32 },
///         }
///     }
/// }
///
/// let mut layout = Layout::new();
/// let state = layout.add(State::Idle);
/// let mut port = layout.open()?.port()?;
/// assert!(port.set(state, State::Running { job: 7 })?.is_applied());
/// assert_eq!(port.get(state)?, State::Running { job: 7 });
/// # Ok::<(), Box<dyn std::error::Error + Send + Sync>>(())
/// ```
///
/// A struct packs its fields:
///
/// ```
/// use partial_door::Word;
///
/// #[derive(Clone, Copy, Debug, PartialEq)]
/// struct Span {
///     start: u32,
///     length: u16,
///     is_open: bool,
/// }
///
/// impl Word for Span {
///     fn to_word(self) -> u64 {
///         u64::from(self.start) << 32 | u64::from(self.length) << 1 | u64::from(self.is_open)
///     }
///
///     fn from_word(word: u64) -> Span {
///         Span { start: (word >> 32) as u32, length: (word >> 1) as u16, is_open: word & 1 == 1 }
///     }
/// }
///
/// let span = Span { start: 7, length: u16::MAX, is_open: true };
/// assert_eq!(Span::from_word(span.to_word()), span);
/// ```
pub trait Word: Sized {
    /// The word of a value.
    fn to_word(self) -> u64;

    /// The value of this word: of what [`to_word`](Word::to_word) makes of a value, an equal value.
    ///
    /// A component has another word only when the untyped calls have set it. Then this may return any value, or panic.
    fn from_word(word: u64) -> Self;
}

/// Integers, signed ones by their sign.
macro_rules! integers {
    ($($of:ty)*) => {$(
        impl Word for $of {
            #[inline]
            fn to_word(self) -> u64 {
                self as u64
            }

            #[inline]
            fn from_word(word: u64) -> $of {
                word as $of
            }
        }
    )*};
}

integers!(u8 u16 u32 u64 usize i8 i16 i32 i64 isize);

/// `None` is the word 0.
macro_rules! nonzero {
    ($($of:ident)*) => {$(
        impl Word for Option<$of> {
            #[inline]
            fn to_word(self) -> u64 {
                self.map_or(0, |value| value.get().to_word())
            }

            #[inline]
            fn from_word(word: u64) -> Option<$of> {
                $of::new(Word::from_word(word))
            }
        }
    )*};
}

nonzero!(NonZeroU8 NonZeroU16 NonZeroU32 NonZeroU64 NonZeroUsize NonZeroI8 NonZeroI16 NonZeroI32 NonZeroI64 NonZeroIsize);

impl Word for bool {
    #[inline]
    fn to_word(self) -> u64 {
        u64::from(self)
    }

    #[inline]
    fn from_word(word: u64) -> bool {
        word != 0
    }
}

/// A word that is no character reads as U+FFFD.
impl Word for char {
    #[inline]
    fn to_word(self) -> u64 {
        u64::from(self)
    }

    #[inline]
    fn from_word(word: u64) -> char {
        u32::try_from(word).ok().and_then(char::from_u32).unwrap_or(char::REPLACEMENT_CHARACTER)
    }
}

/// The bits of the number, so each NaN comes back as it was.
impl Word for f32 {
    #[inline]
    fn to_word(self) -> u64 {
        u64::from(self.to_bits())
    }

    #[inline]
    fn from_word(word: u64) -> f32 {
        f32::from_bits(word as u32)
    }
}

/// The bits of the number, so each NaN comes back as it was.
impl Word for f64 {
    #[inline]
    fn to_word(self) -> u64 {
        self.to_bits()
    }

    #[inline]
    fn from_word(word: u64) -> f64 {
        f64::from_bits(word)
    }
}

/// Nanoseconds. A duration of more than 2^64 - 1 of them, which are 584 years, is stored as so many.
impl Word for Duration {
    #[inline]
    fn to_word(self) -> u64 {
        u64::try_from(self.as_nanos()).unwrap_or(u64::MAX)
    }

    #[inline]
    fn from_word(word: u64) -> Duration {
        Duration::from_nanos(word)
    }
}
