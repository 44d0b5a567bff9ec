//! Sessions as text: one field on a line, its numbers in decimal. `zenfrosta session --help` has the form.
//!
//! Any bytes can be written as such a text, and the text gives the same bytes again: what is no field of a session stands there as hexadecimal digits.
//! Whether the numbers are allowed is for the library to say; here they only have to fit their bytes.

mod read;
mod write;

pub use read::{read, Script};
pub use write::{hex, page_hex, requests, write};

/// How far a session has come.
#[derive(Clone, Copy, PartialEq)]
enum Part {
    Nothing,
    Setup,
    Requests,
    Closed,
}

#[cfg(test)]
mod tests {
    use super::*;
    use crate::fault::Spot;
    use crate::files::Input;
    use crate::noise::Noise;

    fn input(text: &str) -> Input {
        Input { name: "s.txt".to_string(), bytes: text.as_bytes().to_vec() }
    }

    fn fault(text: &str) -> String {
        read(&input(text)).expect_err("a fault").to_string()
    }

    #[test]
    fn bytes_of_a_text() {
        let text = "lane 0 512 # no longest\n\nput 0 0x10 1000\n";
        let bytes = b"\x01\0\x02\0\x02\x10\0\x03\0\x02\0\x7F\0\0\x20\0\x07\0\0\0\0\x10\x03\xE8\x7F\0\0";
        assert_eq!(read(&input(text)).expect("a good text").bytes, bytes);
        assert_eq!(write(bytes), "format 2\nlane 0 512\n\nput 0 16 1000\nend\n");
    }

    #[test]
    fn trains() {
        let text = "format 1\nlane 3 512 64\nshared 3\n\nput 3 5 16 64\nput 3 1 64\nend\n";
        let bytes = b"\x01\0\x02\0\x01\x10\0\x05\x03\x02\0\0\x40\x12\0\x01\x03\x7F\0\0\
            \x26\0\x08\x03\x05\0\0\0\x10\0\x40\x20\0\x07\x03\0\0\0\x01\0\x40\x7F\0\0";
        assert_eq!(read(&input(text)).expect("a good text").bytes, bytes);
        assert_eq!(write(bytes), text);
    }

    #[test]
    fn faults_have_line_and_column() {
        assert_eq!(
            fault("lane 0 512\n  put 0 1"),
            "s.txt:2:10: a number is missing: 'put LANE [TRAIN] MARK LENGTH'"
        );
        assert_eq!(fault("put 0 1 2 3 4"), "s.txt:1:13: one word too many: 'put LANE [TRAIN] MARK LENGTH'");
        assert_eq!(
            fault("put 0 256 2 3"),
            "s.txt:1:7: the train 256 does not fit its field: 255 is the most"
        );
        assert_eq!(fault("take 1"), "s.txt:1:6: one word too many: 'take'");
        assert_eq!(fault("put 0 x 1"), "s.txt:1:7: the mark is 'x', and not a number");
        assert_eq!(fault("lane 256 1"), "s.txt:1:6: the lane 256 does not fit its field: 255 is the most");
        assert_eq!(
            fault("take\nlane 0 1"),
            "s.txt:2:1: 'lane' belongs to the setup, before the first request"
        );
        assert_eq!(fault("end\ntake"), "s.txt:2:1: 'take' behind the session's end");
        assert_eq!(fault("bytes 0"), "s.txt:1:7: '0' is no row of bytes: two hexadecimal digits for each");
        assert!(fault("takes").starts_with("s.txt:1:1: 'takes' is no line of a session: format, "));
    }

    #[test]
    fn places_lead_back_to_the_text() {
        let said = read(&input("format 1\nlane 0 2000 1500\n")).expect("a good text");
        // The weight's first byte.
        assert_eq!(said.spot(9), Some(Spot { line: 2, column: 8 }));
        assert_eq!(said.spot(said.bytes.len()), Some(Spot { line: 3, column: 1 }));
    }

    /// Any bytes are written as a text that gives them again.
    #[test]
    fn any_bytes_come_back() {
        let mut noise = Noise(3);
        let good = read(&input(
            "framing 9\nlane 0 512\nlane 1 256 64\nshared 1\nput 0 1 9\nput 1 7 2 9\nlag 1\ntake\nrestart",
        ))
        .expect("a good text")
        .bytes;
        for round in 0..6_000 {
            let bytes = match round % 3 {
                0 => (0..noise.below(40))
                    .map(|_| [0x01, 0x7F, 0, noise.below(256) as u8][noise.below(4)])
                    .collect(),
                _ => {
                    let mut bytes = good.clone();
                    for _ in 0..noise.below(3) {
                        let at = noise.below(bytes.len());
                        bytes[at] = [noise.below(256) as u8, 0, 0x7F][noise.below(3)];
                    }
                    bytes.truncate(bytes.len() - noise.below(12));
                    bytes
                }
            };
            let text = write(&bytes);
            let again = read(&input(&text)).unwrap_or_else(|fault| panic!("{fault}: {text}"));
            assert_eq!(again.bytes, bytes, "{text}");
        }
    }
}
