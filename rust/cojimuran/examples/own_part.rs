// A part of your own that delegates to another part.

use cojimuran::{Padded, Part, Show, Shown};
use std::fmt;

#[derive(Clone, Copy)]
struct Time {
    hour: u8,
    minute: u8,
}

impl Time {
    fn text(self) -> impl Show {
        (Padded(self.hour, 2), ":", Padded(self.minute, 2))
    }
}

impl fmt::Display for Time {
    fn fmt(&self, f: &mut fmt::Formatter<'_>) -> fmt::Result {
        Shown(self.text()).fmt(f)
    }
}

impl Part for Time {
    fn room(self) -> usize {
        self.text().room()
    }

    fn write_to(self, buffer: &mut [u8]) -> usize {
        self.text().write_to(buffer)
    }

    fn text_len(self) -> Option<usize> {
        self.text().text_len()
    }
}

impl Show for Time {
    fn is_showable(self) -> bool {
        self.text().is_showable()
    }

    fn write_pieces<O: fmt::Write>(self, out: &mut O) -> fmt::Result {
        self.text().write_pieces(out)
    }
}

fn main() {
    let time = Time { hour: 7, minute: 5 };
    assert_eq!((time, " start").to_str(&mut [0; 11]), "07:05 start");
    assert_eq!(format!("{}", Shown((time, " start"))), "07:05 start");
    assert_eq!(format!("{time:>7}"), "  07:05");
}
