//! Stands in for the crate `ec4rs`: no file is read. [`properties_of`] gives the
//! resolved values that the same thread set last, and `use_fallbacks` does nothing,
//! so a caller sees exactly those.

use std::cell::Cell;
use std::path::Path;

/// A property that [`Properties`] holds.
pub trait Property: Sized {
    fn of(properties: &Properties) -> Option<Self>;
}

/// Each property: its type, the field that holds it, and its values.
macro_rules! properties {
    ($($name:ident $field:ident { $($value:ident $(($of:ty))?),* })*) => {
        pub mod property {
            //! The properties that a formatter reads.
            $(
                #[derive(Clone, Copy, Debug, PartialEq, Eq)]
                pub enum $name { $($value $(($of))?),* }
            )*
        }

        /// The resolved values; `None` is unset.
        #[derive(Clone, Copy, Debug, Default, PartialEq, Eq)]
        pub struct Properties {
            $(pub $field: Option<property::$name>,)*
        }

        $(impl Property for property::$name {
            fn of(properties: &Properties) -> Option<Self> {
                properties.$field
            }
        })*
    };
}

properties! {
    IndentStyle style { Tabs, Spaces }
    IndentSize size { UseTabWidth, Value(usize) }
    TabWidth tab { Value(usize) }
    MaxLineLen max { Value(usize), Off }
    EndOfLine ending { Lf, CrLf, Cr }
    FinalNewline newline { Value(bool) }
}

/// The property is unset.
#[derive(Clone, Copy, Debug, PartialEq, Eq)]
pub struct Unset;

impl Properties {
    pub fn get<T: Property>(&self) -> Result<T, Unset> {
        T::of(self).ok_or(Unset)
    }

    /// The values are resolved already.
    pub fn use_fallbacks(&mut self) {}
}

thread_local! {
    static CURRENT: Cell<Properties> = Cell::default();
}

/// What [`properties_of`] gives on this thread from now on.
pub fn set(properties: Properties) {
    CURRENT.set(properties);
}

/// The values set by [`set`], whatever the path.
pub fn properties_of(_: impl AsRef<Path>) -> Result<Properties, Unset> {
    Ok(CURRENT.get())
}
