//! What FROM_OTHER_CRATES.md of the package says to write. Each section of the page has a test here, with the code of
//! its rows in their order. The last test names a row whose code is not here.

#[allow(dead_code, reason = "its main")]
#[path = "../../cojimuran/examples/number_of_128_bits.rs"]
mod number_of_128_bits;

use cojimuran::write::WriteInteger;
use cojimuran::{
    BUFFER_SIZE, Binary, Buffer, Center, Digits, Displayed, Fixed, Formatted, FormattedSize, Hex, Left, Lower,
    NumberFormat, NumberFormatBuilder, Options, Padded, Part, Plus, PushPart, Right, Scientific, Shown, ToLexical,
    ToLexicalWithOptions, WritePart, ZeroPadded,
};
use number_of_128_bits::{format_i128, format_u128};

#[test]
fn from_format_and_write() -> std::io::Result<()> {
    let (number, a, b, cents, float) = (7u32, -1i64, 2i64, 1995u64, 0.5);
    let (mut file, mut buffer) = (Vec::new(), [0; 64]);
    assert_eq!(Buffer::new().format(number), number.to_string());
    let mut text = Buffer::new();
    let kept = text.format(number);
    assert_eq!(kept, "7");

    let mut text = String::new();
    text.push_part((a, ",", b));
    assert_eq!(text, format!("{a},{b}"));
    assert_eq!(Shown((a, ",", b)).to_string(), format!("{a},{b}"));
    text.clear();
    text.push_part((a, ",", b, "\n"));
    assert_eq!(text, format!("{a},{b}\n"));
    file.write_part((a, ",", b, "\n"))?;
    assert_eq!(file, b"-1,2\n");
    text.clear();
    text.push_part((Displayed(&format_args!("{float:.2}")), ",", b, "\n"));
    assert_eq!(text, format!("{float:.2},{b}\n"));

    assert_eq!(ZeroPadded(number, 6).to_str(&mut buffer), format!("{number:06}"));
    assert_eq!(ZeroPadded(a, 6).to_str(&mut buffer), format!("{a:06}"));
    assert_eq!(Padded(number, 6).to_str(&mut buffer), format!("{number:06}"));
    assert_eq!(Right(number, 8, b' ').to_str(&mut buffer), format!("{number:>8}"));
    assert_eq!(Left(number, 8, b' ').to_str(&mut buffer), format!("{number:<8}"));
    assert_eq!(Center(number, 8, b' ').to_str(&mut buffer), format!("{number:^8}"));
    let name = "shoe";
    assert_eq!(Left(name, 8, b' ').to_str(&mut buffer), format!("{name:<8}"));
    assert_eq!(Hex(number).to_str(&mut buffer), format!("{number:X}"));
    assert_eq!(Lower(Hex(number)).to_str(&mut buffer), format!("{number:x}"));
    let number = -1i32;
    assert_eq!(Hex(number as u32).to_str(&mut buffer), format!("{number:X}"));
    let number = 7u32;
    assert_eq!(Binary(number).to_str(&mut buffer), format!("{number:b}"));
    assert_eq!(Digits(8, number).to_str(&mut buffer), format!("{number:o}"));
    for number in [0, 7, -7] {
        assert_eq!(Plus(number).to_str(&mut buffer), format!("{number:+}"));
    }
    assert_eq!(("0x", Lower(Hex(number))).to_str(&mut buffer), format!("{number:#x}"));
    let number = 1200;
    assert_eq!(Scientific(number, 0).to_str(&mut buffer), format!("{number:e}"));
    assert_eq!(Fixed(cents, 2).to_str(&mut buffer), format!("{}.{:02}", cents / 100, cents % 100));
    Ok(())
}

#[test]
fn from_itoa() {
    let (number, a, b) = (7u32, -1i64, 2i64);
    let (mut output, mut text, mut buffer) = (Vec::new(), String::new(), [0; 64]);
    assert_eq!(Buffer::new().format(number), "7");
    output.extend_from_slice(Buffer::new().format(number).as_bytes());
    output.push_part(number);
    text.push_part((a, ",", b));
    assert_eq!((output, text), (b"77".to_vec(), "-1,2".to_owned()));
    fn text_of(value: impl ToLexical) -> String {
        Buffer::new().format(value).to_owned()
    }
    assert_eq!((text_of(i8::MIN), text_of(usize::MAX)), (i8::MIN.to_string(), usize::MAX.to_string()));
    let number = u128::MAX;
    assert_eq!(Displayed(&number).to_str(&mut buffer), number.to_string());
}

#[test]
fn from_lexical_write_integer() {
    const OPTIONS: Options = Options::new();
    let number = 1000u64;
    let mut buffer = [0; u64::FORMATTED_SIZE_DECIMAL];
    assert_eq!(number.to_lexical(&mut buffer), b"1000");
    fn length(value: impl ToLexical) -> usize {
        value.to_lexical(&mut [0; BUFFER_SIZE]).len()
    }
    assert_eq!(length(-1i8), 2);

    const FORMAT: NumberFormat = NumberFormatBuilder::from_radix(36);
    let mut buffer = [0; SIZE];
    assert_eq!(number.to_lexical_with_options(&mut buffer, &FORMAT, &OPTIONS), b"RS");
    const SIZE: usize = OPTIONS.buffer_size_const::<u64>(&FORMAT);
    #[rustfmt::skip]
    fn push<T: ToLexicalWithOptions<Options = Options>>(value: T, format: &NumberFormat) -> Vec<u8> {
        value.to_lexical_with_options(&mut [0; BUFFER_SIZE], format, &OPTIONS).to_vec()
    }
    assert_eq!(push(-1i8, &FORMAT), b"-1");
    assert_eq!(NumberFormatBuilder::new().radix(37).build().unwrap_err().to_string(), "invalid mantissa radix 37");
    assert_eq!(number.write_mantissa(&FORMAT, &mut buffer), 2);
    assert_eq!(Lower(Digits(36, number)).to_str(&mut buffer), "rs");
    let number = i128::MIN;
    assert_eq!(Displayed(&number).to_str(&mut buffer), number.to_string());
}

#[test]
fn from_num_format_and_radix_fmt() {
    const THOUSANDS: NumberFormat = NumberFormatBuilder::new().digit_grouping(3, b',').build_strict();
    let (number, mut buffer) = (1234567u32, [0; 64]);
    assert_eq!(Formatted(number, &THOUSANDS).to_str(&mut buffer), "1,234,567");
    assert_eq!(Lower(Digits(36, number)).to_str(&mut buffer), "qglj");
    assert_eq!(Digits(36, number).to_str(&mut buffer), "QGLJ");
    let number = -1i64;
    assert_eq!(Lower(Digits(36, number as u64)).to_str(&mut buffer), "3w5e11264sgsf");
}

#[test]
fn numbers_of_128_bits() {
    let ten_19 = 10u128.pow(19);
    let limits = [0, u128::from(u64::MAX), ten_19, ten_19 << 64, ten_19 * ten_19, u128::MAX];
    let near = limits.into_iter().flat_map(|limit| [limit.wrapping_sub(1), limit, limit.wrapping_add(1)]);
    let mut state = 0x9e37_79b9_7f4a_7c15_f39c_c060_5ced_c835_u128;
    let random = (0..1_000_000).map(|i| {
        state = state.wrapping_mul(0xda94_2042_e4dd_58b5).wrapping_add(1);
        (state ^ state >> 61) >> (i % 128)
    });
    for number in near.chain(random) {
        assert_eq!(format_u128(number, &mut [0; 40]), number.to_string());
        let signed = i128::from_ne_bytes(number.to_ne_bytes());
        assert_eq!(format_i128(signed, &mut [0; 40]), signed.to_string());
    }
}

/// Returns the code on the right of each row of the tables. A text without these characters is a name.
fn code_of_rows(page: &str) -> Vec<&str> {
    let rows = page.lines().filter(|line| line.starts_with("| "));
    let cells = rows.map(|row| row.rsplit(" | ").next().unwrap());
    let texts = cells.flat_map(|cell| cell.split('`').skip(1).step_by(2));
    texts.filter(|text| text.contains(['(', '[', '='])).collect()
}

#[test]
fn each_row_has_its_code_here() {
    let without_spaces = |text: &str| text.split_whitespace().collect::<String>();
    let here = without_spaces(include_str!("from_other_crates.rs"));
    let mut rest = here.as_str();
    let rows = code_of_rows(include_str!("../../cojimuran/FROM_OTHER_CRATES.md"));
    for code in &rows {
        let found = rest.split_once(&without_spaces(code));
        (_, rest) = found.unwrap_or_else(|| panic!("{code} is not here, after the code of the rows above it"));
    }
    assert!(rows.len() > 30, "{}", rows.len());
}
