use cojimuran::{Buffer, Digits, Hex, Part, PushPart};

fn main() {
    // A number in decimal.
    println!("{}", Buffer::new().format(-1234i32));
    // A number in radix 36, in an array. A `u64` has at most 13 digits.
    let mut buffer = [0; 13];
    println!("{}", Digits(36, u64::MAX).to_str(&mut buffer));
    // A line at the end of a `String`.
    let mut text = String::new();
    text.push_part(("id=", 7u8, " flags=0x", Hex(255u16)));
    println!("{text}");
}
