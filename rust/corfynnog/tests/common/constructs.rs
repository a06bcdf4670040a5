//! A diagram with every construct, as a text and as a file.

/// Every construct that a text can hold, as `show` prints it.
pub const TEXT: &str = "classdiagram all {
  enum Colour {red, tan;}
  enum Date;
  interface Wired;
  interface Socket extends Wired;
  abstract class Part;
  class Card extends Part implements Wired, Socket {
    Colour paint;
    Date sales;
  }
  <<singleton>> class Exchange extends Part;
  association [*] Part (a) -> (b) Card [2..*];
  association [0] Part (c) <- (d) Card [1];
  composition [1] Exchange (e) <-> (f) Card [0..100];
  association [3..4] Card (g) -- (g) Card [0..1];
}
";

/// The same, and the attribute `made` of the interface Wired, which a text cannot hold.
pub fn file() -> Vec<u8> {
    [
        &b"\x10\x00\x01\x01"[..],
        b"\x20\x00\x10\x06Colour\x02\x03red\x03tan",
        b"\x20\x00\x06\x04Date\x00",
        b"\x30\x00\x08\x02\x05Wired\x00",
        b"\x30\x00\x0A\x02\x06Socket\x01\x00",
        b"\x30\x00\x07\x01\x04Part\x00",
        b"\x30\x00\x0A\x00\x04Card\x03\x00\x01\x02",
        b"\x30\x00\x0C\x03\x08Exchange\x01\x02",
        b"\x40\x00\x07\x00\x04made\x01",
        b"\x40\x00\x08\x03\x05paint\x00",
        b"\x40\x00\x08\x03\x05sales\x01",
        b"\x50\x00\x0C\x00\x01\x02\x00\xFF\x01a\x03\x02\xFF\x01b",
        b"\x50\x00\x0C\x00\x02\x02\x00\x00\x01c\x03\x01\x01\x01d",
        b"\x50\x00\x0C\x01\x03\x04\x01\x01\x01e\x03\x00\x64\x01f",
        b"\x50\x00\x0C\x00\x04\x03\x03\x04\x01g\x03\x00\x01\x01g",
    ]
    .concat()
}

/// What `show` prints of the file: the text under this name, with the attribute.
pub fn shown(name: &str) -> String {
    TEXT.replace("classdiagram all", &format!("classdiagram {name}"))
        .replace("interface Wired;", "interface Wired {\n    Date made;\n  }")
}
