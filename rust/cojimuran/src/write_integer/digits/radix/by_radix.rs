// Made by `strip` from crates/lexical_write_integer/src/digits/radix/by_radix.rt. Edit that file, not this one.

//! Choosing the code of a radix.

// Calls the instance for this radix, which is from 2 to 36, of a function whose last or only generic parameter is
// the radix. Each instance divides by a constant. Of two functions the first is for the powers of 2.
macro_rules! by_radix {
    ($($value:literal)*; $radix:expr, $run:ident$arguments:tt) => {
        match $radix {
            $($value => $run::<$value>$arguments,)*
            _ => panic!("the radix is not from 2 to 36"),
        }
    };
    ($($value:literal)*; $radix:expr, $run:ident::<$argument:tt>$arguments:tt) => {
        match $radix {
            $($value => $run::<$argument, $value>$arguments,)*
            _ => panic!("the radix is not from 2 to 36"),
        }
    };
    ($($power:literal)*; $($value:literal)*; $radix:expr, $of_power:ident or $run:ident::<$argument:tt>$arguments:tt) => {
        match $radix {
            $($power => $of_power::<$argument, $power>$arguments,)*
            $($value => $run::<$argument, $value>$arguments,)*
            _ => panic!("the radix is not from 2 to 36"),
        }
    };
    ($radix:expr, $of_power:ident or $($call:tt)+) => {
        by_radix!(
            2 4 8 16 32;
            3 5 6 7 9 10 11 12 13 14 15 17 18 19 20 21 22 23 24 25 26 27 28 29 30 31 33 34 35 36;
            $radix, $of_power or $($call)+
        )
    };
    ($radix:expr, $($call:tt)+) => {
        by_radix!(
            2 3 4 5 6 7 8 9 10 11 12 13 14 15 16 17 18 19 20 21 22 23 24 25 26 27 28 29 30 31 32 33 34 35 36;
            $radix, $($call)+
        )
    };
}

pub(crate) use by_radix;
