//! The writers of integers as C functions, which `crates/lexical_c/include/lexical.h` declares and explains.
#![no_std]

mod buffer_size;
mod decimal;
mod ending;
mod format;
mod general;
mod hexadecimal;
mod integer;
mod length;
mod plain;
mod version;
mod write;

use format::CFormat;

/// Exports the functions that take a slice, as functions that take a pointer and a size.
macro_rules! export {
    ($($module:ident::$name:ident($($argument:ident: $type:ty),*)),* $(,)?) => { $(
        #[unsafe(no_mangle)]
        unsafe extern "C" fn $name($($argument: $type,)* buffer: *mut u8, size: usize) -> usize {
            // If the size is 0, the pointer may be NULL, which is no slice. No buffer has more than PTRDIFF_MAX bytes:
            // such a size is a difference that was negative in the caller. In both cases no text fits.
            if size as isize <= 0 {
                return 0;
            }
            // SAFETY: `lexical.h` requires of the caller that `buffer` points to `size` bytes that may be written, that
            // they do not overlap the format, and that nothing else uses them during the call. They are at most
            // PTRDIFF_MAX. The caller may not have initialized them, but no compiler sees its code together with this.
            let buffer = unsafe { core::slice::from_raw_parts_mut(buffer, size) };
            $module::$name($($argument,)* buffer)
        }
    )* };
}

export! {
    write::lexical_write_u8(value: u8, format: &CFormat),
    write::lexical_write_u16(value: u16, format: &CFormat),
    write::lexical_write_u32(value: u32, format: &CFormat),
    write::lexical_write_u64(value: u64, format: &CFormat),
    write::lexical_write_size(value: usize, format: &CFormat),
    write::lexical_write_i8(value: i8, format: &CFormat),
    write::lexical_write_i16(value: i16, format: &CFormat),
    write::lexical_write_i32(value: i32, format: &CFormat),
    write::lexical_write_i64(value: i64, format: &CFormat),
    decimal::lexical_decimal_u8(value: u8), decimal::lexical_decimal_u16(value: u16),
    decimal::lexical_decimal_u32(value: u32), decimal::lexical_decimal_u64(value: u64),
    decimal::lexical_decimal_size(value: usize), decimal::lexical_decimal_i8(value: i8),
    decimal::lexical_decimal_i16(value: i16), decimal::lexical_decimal_i32(value: i32),
    decimal::lexical_decimal_i64(value: i64),
    ending::lexical_pad(count: usize, width: usize), ending::lexical_terminate(count: usize),
}

#[link(name = "c")]
unsafe extern "C" {
    safe fn abort() -> !;
}

/// Ends the program: a panic does not unwind into C. No call that meets the conditions of the header panics.
#[panic_handler]
fn panic(_: &core::panic::PanicInfo) -> ! {
    abort()
}
