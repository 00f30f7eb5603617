// Made by `strip` from crates/lexical_parts/src/layout/tuples.rt. Edit that file, not this one.

//! Tuples of two to twelve parts, whose text is the texts of their members in order.

use crate::parts::part::Part;
use crate::parts::sealed::Sealed;
use crate::parts::show::Show;
use core::fmt;

// Each length has an `impl` of its own, because `rt ci` refuses one that a macro of ours writes. A tuple of three
// members or more does what the pair of its first member and of the tuple of the others does. From eight members on a
// pattern names them, because that is shorter than their fields.
impl<A: Part, B: Part> Part for (A, B) {
    #[inline(always)]
    #[track_caller]
    fn room(self) -> usize {
        self.0.room().saturating_add(self.1.room())
    }

    #[inline(always)]
    #[track_caller]
    fn text_len(self) -> Option<usize> {
        let first = self.0.text_len()?;
        first.checked_add(self.1.text_len()?)
    }

    #[inline(always)]
    #[track_caller]
    fn write_to(self, buffer: &mut [u8]) -> usize {
        let first = self.0.write_to(buffer);
        first + self.1.write_to(&mut buffer[first..])
    }

    #[inline(always)]
    #[track_caller]
    fn is_known_valid_and_utf8(self, sealed: Sealed) -> bool {
        self.0.is_known_valid_and_utf8(sealed) && self.1.is_known_valid_and_utf8(sealed)
    }

    #[inline(always)]
    #[track_caller]
    fn room_bound(self, sealed: Sealed) -> usize {
        self.0
            .room_bound(sealed)
            .saturating_add(self.1.room_bound(sealed))
    }
}

impl<A: Show, B: Show> Show for (A, B) {
    #[inline(always)]
    #[track_caller]
    fn is_showable(self) -> bool {
        self.0.is_showable() && self.1.is_showable()
    }

    #[inline(always)]
    #[track_caller]
    fn write_pieces<O: fmt::Write>(self, out: &mut O) -> fmt::Result {
        self.0.write_pieces(out)?;
        self.1.write_pieces(out)
    }
}

impl<A: Part, B: Part, C: Part> Part for (A, B, C) {
    #[inline(always)]
    #[track_caller]
    fn room(self) -> usize {
        (self.0, (self.1, self.2)).room()
    }

    #[inline(always)]
    #[track_caller]
    fn text_len(self) -> Option<usize> {
        (self.0, (self.1, self.2)).text_len()
    }

    #[inline(always)]
    #[track_caller]
    fn write_to(self, buffer: &mut [u8]) -> usize {
        (self.0, (self.1, self.2)).write_to(buffer)
    }

    #[inline(always)]
    #[track_caller]
    fn is_known_valid_and_utf8(self, sealed: Sealed) -> bool {
        (self.0, (self.1, self.2)).is_known_valid_and_utf8(sealed)
    }

    #[inline(always)]
    #[track_caller]
    fn room_bound(self, sealed: Sealed) -> usize {
        (self.0, (self.1, self.2)).room_bound(sealed)
    }
}

impl<A: Show, B: Show, C: Show> Show for (A, B, C) {
    #[inline(always)]
    #[track_caller]
    fn is_showable(self) -> bool {
        (self.0, (self.1, self.2)).is_showable()
    }

    #[inline(always)]
    #[track_caller]
    fn write_pieces<O: fmt::Write>(self, out: &mut O) -> fmt::Result {
        (self.0, (self.1, self.2)).write_pieces(out)
    }
}

impl<A: Part, B: Part, C: Part, D: Part> Part for (A, B, C, D) {
    #[inline(always)]
    #[track_caller]
    fn room(self) -> usize {
        (self.0, (self.1, self.2, self.3)).room()
    }

    #[inline(always)]
    #[track_caller]
    fn text_len(self) -> Option<usize> {
        (self.0, (self.1, self.2, self.3)).text_len()
    }

    #[inline(always)]
    #[track_caller]
    fn write_to(self, buffer: &mut [u8]) -> usize {
        (self.0, (self.1, self.2, self.3)).write_to(buffer)
    }

    #[inline(always)]
    #[track_caller]
    fn is_known_valid_and_utf8(self, sealed: Sealed) -> bool {
        (self.0, (self.1, self.2, self.3)).is_known_valid_and_utf8(sealed)
    }

    #[inline(always)]
    #[track_caller]
    fn room_bound(self, sealed: Sealed) -> usize {
        (self.0, (self.1, self.2, self.3)).room_bound(sealed)
    }
}

impl<A: Show, B: Show, C: Show, D: Show> Show for (A, B, C, D) {
    #[inline(always)]
    #[track_caller]
    fn is_showable(self) -> bool {
        (self.0, (self.1, self.2, self.3)).is_showable()
    }

    #[inline(always)]
    #[track_caller]
    fn write_pieces<O: fmt::Write>(self, out: &mut O) -> fmt::Result {
        (self.0, (self.1, self.2, self.3)).write_pieces(out)
    }
}

impl<A: Part, B: Part, C: Part, D: Part, E: Part> Part for (A, B, C, D, E) {
    #[inline(always)]
    #[track_caller]
    fn room(self) -> usize {
        (self.0, (self.1, self.2, self.3, self.4)).room()
    }

    #[inline(always)]
    #[track_caller]
    fn text_len(self) -> Option<usize> {
        (self.0, (self.1, self.2, self.3, self.4)).text_len()
    }

    #[inline(always)]
    #[track_caller]
    fn write_to(self, buffer: &mut [u8]) -> usize {
        (self.0, (self.1, self.2, self.3, self.4)).write_to(buffer)
    }

    #[inline(always)]
    #[track_caller]
    fn is_known_valid_and_utf8(self, sealed: Sealed) -> bool {
        (self.0, (self.1, self.2, self.3, self.4)).is_known_valid_and_utf8(sealed)
    }

    #[inline(always)]
    #[track_caller]
    fn room_bound(self, sealed: Sealed) -> usize {
        (self.0, (self.1, self.2, self.3, self.4)).room_bound(sealed)
    }
}

impl<A: Show, B: Show, C: Show, D: Show, E: Show> Show for (A, B, C, D, E) {
    #[inline(always)]
    #[track_caller]
    fn is_showable(self) -> bool {
        (self.0, (self.1, self.2, self.3, self.4)).is_showable()
    }

    #[inline(always)]
    #[track_caller]
    fn write_pieces<O: fmt::Write>(self, out: &mut O) -> fmt::Result {
        (self.0, (self.1, self.2, self.3, self.4)).write_pieces(out)
    }
}

impl<A: Part, B: Part, C: Part, D: Part, E: Part, F: Part> Part for (A, B, C, D, E, F) {
    #[inline(always)]
    #[track_caller]
    fn room(self) -> usize {
        (self.0, (self.1, self.2, self.3, self.4, self.5)).room()
    }

    #[inline(always)]
    #[track_caller]
    fn text_len(self) -> Option<usize> {
        (self.0, (self.1, self.2, self.3, self.4, self.5)).text_len()
    }

    #[inline(always)]
    #[track_caller]
    fn write_to(self, buffer: &mut [u8]) -> usize {
        (self.0, (self.1, self.2, self.3, self.4, self.5)).write_to(buffer)
    }

    #[inline(always)]
    #[track_caller]
    fn is_known_valid_and_utf8(self, sealed: Sealed) -> bool {
        (self.0, (self.1, self.2, self.3, self.4, self.5)).is_known_valid_and_utf8(sealed)
    }

    #[inline(always)]
    #[track_caller]
    fn room_bound(self, sealed: Sealed) -> usize {
        (self.0, (self.1, self.2, self.3, self.4, self.5)).room_bound(sealed)
    }
}

impl<A: Show, B: Show, C: Show, D: Show, E: Show, F: Show> Show for (A, B, C, D, E, F) {
    #[inline(always)]
    #[track_caller]
    fn is_showable(self) -> bool {
        (self.0, (self.1, self.2, self.3, self.4, self.5)).is_showable()
    }

    #[inline(always)]
    #[track_caller]
    fn write_pieces<O: fmt::Write>(self, out: &mut O) -> fmt::Result {
        (self.0, (self.1, self.2, self.3, self.4, self.5)).write_pieces(out)
    }
}

impl<A: Part, B: Part, C: Part, D: Part, E: Part, F: Part, G: Part> Part for (A, B, C, D, E, F, G) {
    #[inline(always)]
    #[track_caller]
    fn room(self) -> usize {
        (self.0, (self.1, self.2, self.3, self.4, self.5, self.6)).room()
    }

    #[inline(always)]
    #[track_caller]
    fn text_len(self) -> Option<usize> {
        (self.0, (self.1, self.2, self.3, self.4, self.5, self.6)).text_len()
    }

    #[inline(always)]
    #[track_caller]
    fn write_to(self, buffer: &mut [u8]) -> usize {
        (self.0, (self.1, self.2, self.3, self.4, self.5, self.6)).write_to(buffer)
    }

    #[inline(always)]
    #[track_caller]
    fn is_known_valid_and_utf8(self, sealed: Sealed) -> bool {
        (self.0, (self.1, self.2, self.3, self.4, self.5, self.6)).is_known_valid_and_utf8(sealed)
    }

    #[inline(always)]
    #[track_caller]
    fn room_bound(self, sealed: Sealed) -> usize {
        (self.0, (self.1, self.2, self.3, self.4, self.5, self.6)).room_bound(sealed)
    }
}

impl<A: Show, B: Show, C: Show, D: Show, E: Show, F: Show, G: Show> Show for (A, B, C, D, E, F, G) {
    #[inline(always)]
    #[track_caller]
    fn is_showable(self) -> bool {
        (self.0, (self.1, self.2, self.3, self.4, self.5, self.6)).is_showable()
    }

    #[inline(always)]
    #[track_caller]
    fn write_pieces<O: fmt::Write>(self, out: &mut O) -> fmt::Result {
        (self.0, (self.1, self.2, self.3, self.4, self.5, self.6)).write_pieces(out)
    }
}

impl<A: Part, B: Part, C: Part, D: Part, E: Part, F: Part, G: Part, H: Part> Part
    for (A, B, C, D, E, F, G, H)
{
    #[inline(always)]
    #[track_caller]
    fn room(self) -> usize {
        let (a, b, c, d, e, f, g, h) = self;
        (a, (b, c, d, e, f, g, h)).room()
    }

    #[inline(always)]
    #[track_caller]
    fn text_len(self) -> Option<usize> {
        let (a, b, c, d, e, f, g, h) = self;
        (a, (b, c, d, e, f, g, h)).text_len()
    }

    #[inline(always)]
    #[track_caller]
    fn write_to(self, buffer: &mut [u8]) -> usize {
        let (a, b, c, d, e, f, g, h) = self;
        (a, (b, c, d, e, f, g, h)).write_to(buffer)
    }

    #[inline(always)]
    #[track_caller]
    fn is_known_valid_and_utf8(self, sealed: Sealed) -> bool {
        let (a, b, c, d, e, f, g, h) = self;
        (a, (b, c, d, e, f, g, h)).is_known_valid_and_utf8(sealed)
    }

    #[inline(always)]
    #[track_caller]
    fn room_bound(self, sealed: Sealed) -> usize {
        let (a, b, c, d, e, f, g, h) = self;
        (a, (b, c, d, e, f, g, h)).room_bound(sealed)
    }
}

impl<A: Show, B: Show, C: Show, D: Show, E: Show, F: Show, G: Show, H: Show> Show
    for (A, B, C, D, E, F, G, H)
{
    #[inline(always)]
    #[track_caller]
    fn is_showable(self) -> bool {
        let (a, b, c, d, e, f, g, h) = self;
        (a, (b, c, d, e, f, g, h)).is_showable()
    }

    #[inline(always)]
    #[track_caller]
    fn write_pieces<O: fmt::Write>(self, out: &mut O) -> fmt::Result {
        let (a, b, c, d, e, f, g, h) = self;
        (a, (b, c, d, e, f, g, h)).write_pieces(out)
    }
}

impl<A: Part, B: Part, C: Part, D: Part, E: Part, F: Part, G: Part, H: Part, I: Part> Part
    for (A, B, C, D, E, F, G, H, I)
{
    #[inline(always)]
    #[track_caller]
    fn room(self) -> usize {
        let (a, b, c, d, e, f, g, h, i) = self;
        (a, (b, c, d, e, f, g, h, i)).room()
    }

    #[inline(always)]
    #[track_caller]
    fn text_len(self) -> Option<usize> {
        let (a, b, c, d, e, f, g, h, i) = self;
        (a, (b, c, d, e, f, g, h, i)).text_len()
    }

    #[inline(always)]
    #[track_caller]
    fn write_to(self, buffer: &mut [u8]) -> usize {
        let (a, b, c, d, e, f, g, h, i) = self;
        (a, (b, c, d, e, f, g, h, i)).write_to(buffer)
    }

    #[inline(always)]
    #[track_caller]
    fn is_known_valid_and_utf8(self, sealed: Sealed) -> bool {
        let (a, b, c, d, e, f, g, h, i) = self;
        (a, (b, c, d, e, f, g, h, i)).is_known_valid_and_utf8(sealed)
    }

    #[inline(always)]
    #[track_caller]
    fn room_bound(self, sealed: Sealed) -> usize {
        let (a, b, c, d, e, f, g, h, i) = self;
        (a, (b, c, d, e, f, g, h, i)).room_bound(sealed)
    }
}

impl<A: Show, B: Show, C: Show, D: Show, E: Show, F: Show, G: Show, H: Show, I: Show> Show
    for (A, B, C, D, E, F, G, H, I)
{
    #[inline(always)]
    #[track_caller]
    fn is_showable(self) -> bool {
        let (a, b, c, d, e, f, g, h, i) = self;
        (a, (b, c, d, e, f, g, h, i)).is_showable()
    }

    #[inline(always)]
    #[track_caller]
    fn write_pieces<O: fmt::Write>(self, out: &mut O) -> fmt::Result {
        let (a, b, c, d, e, f, g, h, i) = self;
        (a, (b, c, d, e, f, g, h, i)).write_pieces(out)
    }
}

impl<A: Part, B: Part, C: Part, D: Part, E: Part, F: Part, G: Part, H: Part, I: Part, J: Part> Part
    for (A, B, C, D, E, F, G, H, I, J)
{
    #[inline(always)]
    #[track_caller]
    fn room(self) -> usize {
        let (a, b, c, d, e, f, g, h, i, j) = self;
        (a, (b, c, d, e, f, g, h, i, j)).room()
    }

    #[inline(always)]
    #[track_caller]
    fn text_len(self) -> Option<usize> {
        let (a, b, c, d, e, f, g, h, i, j) = self;
        (a, (b, c, d, e, f, g, h, i, j)).text_len()
    }

    #[inline(always)]
    #[track_caller]
    fn write_to(self, buffer: &mut [u8]) -> usize {
        let (a, b, c, d, e, f, g, h, i, j) = self;
        (a, (b, c, d, e, f, g, h, i, j)).write_to(buffer)
    }

    #[inline(always)]
    #[track_caller]
    fn is_known_valid_and_utf8(self, sealed: Sealed) -> bool {
        let (a, b, c, d, e, f, g, h, i, j) = self;
        (a, (b, c, d, e, f, g, h, i, j)).is_known_valid_and_utf8(sealed)
    }

    #[inline(always)]
    #[track_caller]
    fn room_bound(self, sealed: Sealed) -> usize {
        let (a, b, c, d, e, f, g, h, i, j) = self;
        (a, (b, c, d, e, f, g, h, i, j)).room_bound(sealed)
    }
}

impl<A: Show, B: Show, C: Show, D: Show, E: Show, F: Show, G: Show, H: Show, I: Show, J: Show> Show
    for (A, B, C, D, E, F, G, H, I, J)
{
    #[inline(always)]
    #[track_caller]
    fn is_showable(self) -> bool {
        let (a, b, c, d, e, f, g, h, i, j) = self;
        (a, (b, c, d, e, f, g, h, i, j)).is_showable()
    }

    #[inline(always)]
    #[track_caller]
    fn write_pieces<O: fmt::Write>(self, out: &mut O) -> fmt::Result {
        let (a, b, c, d, e, f, g, h, i, j) = self;
        (a, (b, c, d, e, f, g, h, i, j)).write_pieces(out)
    }
}

impl<
    A: Part,
    B: Part,
    C: Part,
    D: Part,
    E: Part,
    F: Part,
    G: Part,
    H: Part,
    I: Part,
    J: Part,
    K: Part,
> Part for (A, B, C, D, E, F, G, H, I, J, K)
{
    #[inline(always)]
    #[track_caller]
    fn room(self) -> usize {
        let (a, b, c, d, e, f, g, h, i, j, k) = self;
        (a, (b, c, d, e, f, g, h, i, j, k)).room()
    }

    #[inline(always)]
    #[track_caller]
    fn text_len(self) -> Option<usize> {
        let (a, b, c, d, e, f, g, h, i, j, k) = self;
        (a, (b, c, d, e, f, g, h, i, j, k)).text_len()
    }

    #[inline(always)]
    #[track_caller]
    fn write_to(self, buffer: &mut [u8]) -> usize {
        let (a, b, c, d, e, f, g, h, i, j, k) = self;
        (a, (b, c, d, e, f, g, h, i, j, k)).write_to(buffer)
    }

    #[inline(always)]
    #[track_caller]
    fn is_known_valid_and_utf8(self, sealed: Sealed) -> bool {
        let (a, b, c, d, e, f, g, h, i, j, k) = self;
        (a, (b, c, d, e, f, g, h, i, j, k)).is_known_valid_and_utf8(sealed)
    }

    #[inline(always)]
    #[track_caller]
    fn room_bound(self, sealed: Sealed) -> usize {
        let (a, b, c, d, e, f, g, h, i, j, k) = self;
        (a, (b, c, d, e, f, g, h, i, j, k)).room_bound(sealed)
    }
}

impl<
    A: Show,
    B: Show,
    C: Show,
    D: Show,
    E: Show,
    F: Show,
    G: Show,
    H: Show,
    I: Show,
    J: Show,
    K: Show,
> Show for (A, B, C, D, E, F, G, H, I, J, K)
{
    #[inline(always)]
    #[track_caller]
    fn is_showable(self) -> bool {
        let (a, b, c, d, e, f, g, h, i, j, k) = self;
        (a, (b, c, d, e, f, g, h, i, j, k)).is_showable()
    }

    #[inline(always)]
    #[track_caller]
    fn write_pieces<O: fmt::Write>(self, out: &mut O) -> fmt::Result {
        let (a, b, c, d, e, f, g, h, i, j, k) = self;
        (a, (b, c, d, e, f, g, h, i, j, k)).write_pieces(out)
    }
}

impl<
    A: Part,
    B: Part,
    C: Part,
    D: Part,
    E: Part,
    F: Part,
    G: Part,
    H: Part,
    I: Part,
    J: Part,
    K: Part,
    L: Part,
> Part for (A, B, C, D, E, F, G, H, I, J, K, L)
{
    #[inline(always)]
    #[track_caller]
    fn room(self) -> usize {
        let (a, b, c, d, e, f, g, h, i, j, k, l) = self;
        (a, (b, c, d, e, f, g, h, i, j, k, l)).room()
    }

    #[inline(always)]
    #[track_caller]
    fn text_len(self) -> Option<usize> {
        let (a, b, c, d, e, f, g, h, i, j, k, l) = self;
        (a, (b, c, d, e, f, g, h, i, j, k, l)).text_len()
    }

    #[inline(always)]
    #[track_caller]
    fn write_to(self, buffer: &mut [u8]) -> usize {
        let (a, b, c, d, e, f, g, h, i, j, k, l) = self;
        (a, (b, c, d, e, f, g, h, i, j, k, l)).write_to(buffer)
    }

    #[inline(always)]
    #[track_caller]
    fn is_known_valid_and_utf8(self, sealed: Sealed) -> bool {
        let (a, b, c, d, e, f, g, h, i, j, k, l) = self;
        (a, (b, c, d, e, f, g, h, i, j, k, l)).is_known_valid_and_utf8(sealed)
    }

    #[inline(always)]
    #[track_caller]
    fn room_bound(self, sealed: Sealed) -> usize {
        let (a, b, c, d, e, f, g, h, i, j, k, l) = self;
        (a, (b, c, d, e, f, g, h, i, j, k, l)).room_bound(sealed)
    }
}

impl<
    A: Show,
    B: Show,
    C: Show,
    D: Show,
    E: Show,
    F: Show,
    G: Show,
    H: Show,
    I: Show,
    J: Show,
    K: Show,
    L: Show,
> Show for (A, B, C, D, E, F, G, H, I, J, K, L)
{
    #[inline(always)]
    #[track_caller]
    fn is_showable(self) -> bool {
        let (a, b, c, d, e, f, g, h, i, j, k, l) = self;
        (a, (b, c, d, e, f, g, h, i, j, k, l)).is_showable()
    }

    #[inline(always)]
    #[track_caller]
    fn write_pieces<O: fmt::Write>(self, out: &mut O) -> fmt::Result {
        let (a, b, c, d, e, f, g, h, i, j, k, l) = self;
        (a, (b, c, d, e, f, g, h, i, j, k, l)).write_pieces(out)
    }
}
