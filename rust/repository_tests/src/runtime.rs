//! What is passed to the tests of the repository in place of the runtime of Rattle.

/// In Rattle, the permission to end the process.
pub trait Abort {}

/// In Rattle, the error of a call that allocates. Here none fails.
pub type AllocError = std::io::Error;

/// The error of a test.
pub type Fail = Box<dyn std::error::Error>;

/// Returns a text as `format!` does.
#[macro_export]
macro_rules! format_in {
    ($($text:tt)*) => { Ok::<String, $crate::runtime::AllocError>(format!($($text)*)) };
}

/// Prints a text as `println!` does.
#[macro_export]
macro_rules! println_in {
    ($($text:tt)*) => {{
        println!($($text)*);
        Ok::<(), $crate::runtime::AllocError>(())
    }};
}

pub fn push_str(string: &mut String, text: &str) -> Result<(), AllocError> {
    string.push_str(text);
    Ok(())
}

pub fn resize(bytes: &mut Vec<u8>, length: usize, byte: u8) -> Result<(), AllocError> {
    bytes.resize(length, byte);
    Ok(())
}

/// The runtime.
pub struct HostRuntime;

impl Abort for HostRuntime {}

/// In Rattle, what allocates.
pub trait Alloc {}

/// The allocator.
#[derive(Clone, Copy)]
pub struct Global;

impl Alloc for Global {}

impl HostRuntime {
    pub fn alloc(&self) -> Global {
        Global
    }
}

/// In Rattle, a text of at most this length that is kept without an allocation.
pub struct InlineText<const LENGTH: usize>;

impl<const LENGTH: usize> InlineText<LENGTH> {
    pub fn of(value: impl ToString) -> String {
        value.to_string()
    }
}
