//! The crates, what is made of each, and the names in them that the steps need to know.

use crate::attributes::{
    ALWAYS, ALWAYS_TRACKED, Attributes, NEVER, NO_INTEGER, NO_PART, NO_SHOW, NONE, NOT_UNSIGNED, TRACKED,
};
use crate::recipe::Recipe;

/// What the crates of the library are made into.
const LIBRARY: Recipe = Recipe {
    name: "",
    package: "cojimuran",
    module: "",
    attributes: &[],
    modules_left_out: "",
    modules_of_laws: "",
    laws: "",
    constants_left_out: "",
};

/// What the crates of the program are made into.
const PROGRAM: Recipe = Recipe { package: "lexwrite", ..LIBRARY };

/// What the crates that only test are made into.
const TESTS: Recipe = Recipe { package: "repository_tests", ..LIBRARY };

/// The crates of which files are made.
pub(crate) const RECIPES: &[Recipe] = &[
    Recipe {
        name: "lexical_num",
        module: "num",
        attributes: &[
            Attributes { lines: NO_INTEGER, types: "FormattedSize", ..NONE },
            Attributes { lines: NOT_UNSIGNED, types: "UnsignedInteger", ..NONE },
            Attributes { functions: "build_strict", ..TRACKED },
            // So neither a new error nor a field breaks a user.
            Attributes { lines: "#[non_exhaustive]", types: "Error Options OptionsBuilder", ..NONE },
        ],
        modules_left_out: "ghost_log",
        laws: "in_range fits_bits",
        ..LIBRARY
    },
    Recipe { name: "lexical_tables", module: "tables", ..LIBRARY },
    Recipe {
        name: "lexical_write_integer",
        module: "write_integer",
        attributes: &[
            Attributes { lines: NO_INTEGER, types: "Decimal ToLexical ToLexicalWithOptions", ..NONE },
            Attributes { lines: NOT_UNSIGNED, types: "Radix DigitCount", ..NONE },
            // With `s` and `z` rustc leaves the first two as calls, so callers stay small, and with `3` it inlines
            // them. The others are called from the writer of long numbers, which calls itself.
            Attributes {
                lines: "#[inline]",
                functions: "shared_write_32 shared_write_64 eighth_power count_and_write_above_eight",
                ..NONE
            },
            // What chooses a writer, the decimal writer, the writer for radices with a fast count, and what
            // `write_by_table_out_of_line` calls. If the format or the radix is constant in a caller, so is the choice.
            Attributes {
                functions: "
                    write_digits write_by_fast_count write_by_table radix write_in_radix_out_of_line write_in_radix
                    write_in_constant_radix write_padded digit_count most_digits fast_log2",
                files: "
                    buffer.rt texts/to_lexical.rt texts/integers.rt digits/write.rt digits/decimal.rt
                    digits/decimal/jeaiii.rt digits/pairs.rt digits/decimal/kernels.rt digits/decimal/decimal_pairs.rt
                    digits/radix/count_while_writing.rt digits/radix/steps.rt digits/radix/count_then_write.rt",
                ..ALWAYS_TRACKED
            },
        ],
        modules_left_out: "turns",
        modules_of_laws: "laws",
        laws: "note_up_to_eight note_up_to_four",
        ..LIBRARY
    },
    Recipe {
        name: "lexical_parts",
        module: "parts",
        attributes: &[
            Attributes { lines: NO_PART, types: "Part", ..NONE },
            Attributes { lines: NO_SHOW, types: "Show", ..NONE },
            // The only function of the package that is not safe code.
            Attributes {
                lines: "#[inline(always)]\n#[track_caller]\n#[allow(unsafe_code)]",
                functions: "to_str",
                ..NONE
            },
            // The code of a number in decimal is long. So a caller calls it, and has no copy of its own.
            Attributes { functions: "format", ..NEVER },
            Attributes {
                lines: "#[inline(never)]\n#[track_caller]",
                functions: "numbers/integers.rt:write_to numbers/fixed.rt:write_to",
                ..NONE
            },
            // Some parts are formatted as others in a constant radix. If that radix were not known there, `{}` of a
            // `Decimal` would have the code of the other radices too.
            Attributes { functions: "fmt text_or_error", ..ALWAYS },
            // In a caller the radix, the texts and the widths are often constant. Each function on the way to the
            // digits must be in the caller too: one that two callers share would have the code of every radix. Only
            // what is behind a reference is called, so that a caller can say where its code ends.
            Attributes {
                functions: "
                    texts/lower.rt:room texts/lower.rt:write_to texts/lower.rt:write_pieces layout/column.rt:room
                    layout/column.rt:write_to layout/zero_padded.rt:room layout/zero_padded.rt:write_to
                    show.rt:write_pieces write_in_one_piece write_field write_with_length to_text
                    write_at try_write_to write_if_it_fits try_to_str str_if_it_fits
                    is_known_valid_and_utf8 room_bound has_room",
                files: "
                    layout/tuples.rt layout/joined.rt numbers/integers.rt numbers/decimal.rt numbers/digits.rt
                    numbers/formatted.rt numbers/powers_of_two.rt numbers/fixed.rt numbers/padded.rt
                    numbers/compact.rt texts/strings.rt texts/words.rt texts/chars.rt texts/bytes.rt
                    texts/hex_bytes.rt texts/option.rt",
                ..ALWAYS_TRACKED
            },
            Attributes {
                files: "
                    texts/reference.rt numbers/plus.rt numbers/sign.rt numbers/scientific.rt numbers/trimmed.rt",
                ..TRACKED
            },
        ],
        modules_of_laws: "laws",
        laws: "rooms_at_most formatted_room_suffices str_is_utf8",
        ..LIBRARY
    },
    Recipe {
        name: "lexical_lines",
        module: "lines",
        modules_left_out: "devices/trace",
        modules_of_laws: "laws",
        laws: "record_put record_flush",
        ..PROGRAM
    },
    Recipe {
        name: "lexical_c",
        package: "lexical_c",
        attributes: &[
            // If rustc inlined the first, it would be in the code of each type twice, and with the second a call in
            // decimal would save registers that only this needs.
            Attributes { functions: "write_caseless write_caseless_in_radix", ..NEVER },
            // If the length of the buffer is known to suffice, the writers have fewer checks.
            Attributes { files: "plain.rt", ..ALWAYS },
        ],
        constants_left_out: "DECIMAL",
        ..LIBRARY
    },
    Recipe {
        name: "uses",
        module: "uses",
        modules_left_out: "exact_conditions/clones other_laws recorded_turns",
        laws: "
            same_address same_amount same_price same_first_price same_weight same_path same_digest same_float
            same_counter same_link same_user different_codes same_row sorts_by_time same_timed",
        ..TESTS
    },
    Recipe { name: "tests", ..TESTS },
];
