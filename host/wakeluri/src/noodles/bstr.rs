//! Names as bytes that are shown as text: what noodles takes from the crate bstr, as far as its calls need it.

use std::borrow::Borrow;
use std::fmt;
use std::ops::Deref;

/// Bytes that are most often text, borrowed.
#[derive(Eq, Hash, Ord, PartialEq, PartialOrd)]
#[repr(transparent)]
pub struct BStr([u8]);

/// Bytes that are most often text, owned.
#[derive(Clone, Default, Eq, Hash, Ord, PartialEq, PartialOrd)]
pub struct BString(Vec<u8>);

impl BStr {
    /// Some bytes as they are.
    ///
    /// ```
    /// use wakeluri::noodles::bstr::BStr;
    /// assert_eq!(BStr::new("LN:4"), b"LN:4");
    /// ```
    #[allow(unsafe_code)]
    pub fn new<B: AsRef<[u8]> + ?Sized>(bytes: &B) -> &Self {
        let bytes: *const [u8] = bytes.as_ref();
        // SAFETY: it is laid out as the bytes that it holds, and borrows them as long
        unsafe { &*(bytes as *const Self) }
    }
}

impl BString {
    /// Some bytes as they are.
    pub fn new(bytes: Vec<u8>) -> Self {
        Self(bytes)
    }
}

impl Deref for BStr {
    type Target = [u8];

    fn deref(&self) -> &[u8] {
        &self.0
    }
}

impl Deref for BString {
    type Target = BStr;

    fn deref(&self) -> &BStr {
        BStr::new(&self.0)
    }
}

impl AsRef<[u8]> for BStr {
    fn as_ref(&self) -> &[u8] {
        &self.0
    }
}

impl AsRef<[u8]> for BString {
    fn as_ref(&self) -> &[u8] {
        &self.0
    }
}

impl AsRef<BStr> for BString {
    fn as_ref(&self) -> &BStr {
        self
    }
}

impl Borrow<BStr> for BString {
    fn borrow(&self) -> &BStr {
        self
    }
}

impl ToOwned for BStr {
    type Owned = BString;

    fn to_owned(&self) -> BString {
        BString(self.0.to_vec())
    }
}

macro_rules! from {
    ($($other:ty, $bytes:ident => $vec:expr;)*) => {$(
        impl From<$other> for BString {
            fn from($bytes: $other) -> Self {
                Self($vec)
            }
        }
    )*};
}

from! {
    &str, text => text.as_bytes().to_vec();
    String, text => text.into_bytes();
    &[u8], bytes => bytes.to_vec();
    Vec<u8>, bytes => bytes;
    &BStr, bytes => bytes.to_vec();
}

impl<const N: usize> From<&[u8; N]> for BString {
    fn from(bytes: &[u8; N]) -> Self {
        Self(bytes.to_vec())
    }
}

impl From<BString> for Vec<u8> {
    fn from(bytes: BString) -> Self {
        bytes.0
    }
}

impl<'b> From<&'b str> for &'b BStr {
    fn from(text: &'b str) -> Self {
        BStr::new(text)
    }
}

impl<'b> From<&'b [u8]> for &'b BStr {
    fn from(bytes: &'b [u8]) -> Self {
        BStr::new(bytes)
    }
}

macro_rules! equal {
    ($($this:ty, $other:ty;)*) => {$(
        impl PartialEq<$other> for $this {
            fn eq(&self, other: &$other) -> bool {
                let (this, other): (&[u8], &[u8]) = (self.as_ref(), other.as_ref());
                this == other
            }
        }

        impl PartialEq<$this> for $other {
            fn eq(&self, other: &$this) -> bool {
                other == self
            }
        }
    )*};
}

equal! {
    BStr, str;
    BStr, [u8];
    BStr, &str;
    BStr, &[u8];
    BStr, BString;
    BStr, Vec<u8>;
    BStr, String;
    BString, str;
    BString, [u8];
    BString, &str;
    BString, &[u8];
    BString, &BStr;
    BString, Vec<u8>;
    BString, String;
}

macro_rules! equal_arrays {
    ($($this:ty),*) => {$(
        impl<const N: usize> PartialEq<[u8; N]> for $this {
            fn eq(&self, other: &[u8; N]) -> bool {
                let this: &[u8] = self.as_ref();
                this == other
            }
        }

        impl<const N: usize> PartialEq<&[u8; N]> for $this {
            fn eq(&self, other: &&[u8; N]) -> bool {
                self == *other
            }
        }

        impl<const N: usize> PartialEq<$this> for [u8; N] {
            fn eq(&self, other: &$this) -> bool {
                other == self
            }
        }
    )*};
}

equal_arrays!(BStr, BString);

/// As text; bytes that are none are shown as U+FFFD.
impl fmt::Display for BStr {
    fn fmt(&self, f: &mut fmt::Formatter<'_>) -> fmt::Result {
        f.pad(&String::from_utf8_lossy(&self.0))
    }
}

impl fmt::Display for BString {
    fn fmt(&self, f: &mut fmt::Formatter<'_>) -> fmt::Result {
        fmt::Display::fmt(&**self, f)
    }
}

/// In quotes, what is no letter escaped.
impl fmt::Debug for BStr {
    fn fmt(&self, f: &mut fmt::Formatter<'_>) -> fmt::Result {
        write!(f, "\"{}\"", self.0.escape_ascii())
    }
}

impl fmt::Debug for BString {
    fn fmt(&self, f: &mut fmt::Formatter<'_>) -> fmt::Result {
        fmt::Debug::fmt(&**self, f)
    }
}
