//! The words of a script: a number in decimal, or a string in quotes, in which \hh is one byte, #5 the number 5 in eight bytes, and *65 behind
//! the quotes goes on with what stands in them up to 65 bytes.

/// The bytes of a word.
pub fn spelled(word: &str) -> Vec<u8> {
    let w = word.as_bytes();
    let mut out = Vec::new();
    let mut i = 0;
    while i < w.len() {
        match w[i] {
            b'"' => i += 1,
            b'\\' => {
                out.push(u8::from_str_radix(&word[i + 1..i + 3], 16).expect("two hex digits"));
                i += 3;
            }
            b'#' => {
                out.extend(number(&word[i + 1..]).to_be_bytes());
                i += 1 + digits(&word[i + 1..]).len();
            }
            b'*' => {
                let total = number(&word[i + 1..]) as usize;
                out = out.iter().copied().cycle().take(total).collect();
                i += 1 + digits(&word[i + 1..]).len();
            }
            b => {
                out.push(b);
                i += 1;
            }
        }
    }
    out
}

fn digits(text: &str) -> &str {
    &text[..text.find(|c: char| !c.is_ascii_digit()).unwrap_or(text.len())]
}

/// The number at the front of a text; 0 where there is none.
pub fn number(text: &str) -> u64 {
    digits(text).parse().unwrap_or(0)
}

/// A string under way, piece by piece.
#[derive(Clone, Default)]
pub struct Spelling {
    text: String,
    after_number: bool,
}

impl Spelling {
    pub fn bytes(mut self, bytes: &[u8]) -> Spelling {
        for &b in bytes {
            let plain = b.is_ascii_alphanumeric() || b"-_.+/()".contains(&b);
            if plain && !(self.after_number && b.is_ascii_digit()) {
                self.text.push(b as char);
            } else {
                self.text.push_str(&format!("\\{b:02x}"));
            }
            self.after_number = false;
        }
        self
    }

    /// Eight bytes.
    pub fn number(mut self, n: u64) -> Spelling {
        self.text.push_str(&format!("#{n}"));
        self.after_number = true;
        self
    }

    pub fn word(self) -> String {
        format!("\"{}\"", self.text)
    }
}

/// The word of any bytes; one byte over and over is written short.
pub fn word(bytes: &[u8]) -> String {
    if bytes.len() > 8 && bytes.iter().all(|b| *b == bytes[0]) {
        return format!("{}*{}", word(&bytes[..1]), bytes.len());
    }
    Spelling::default().bytes(bytes).word()
}

/// A string as an answer shows it.
pub fn shown(bytes: &[u8]) -> String {
    let letter = |b: &u8| if (32..127).contains(b) { (*b as char).to_string() } else { format!("\\{b:02x}") };
    format!("\"{}\"", bytes.iter().map(letter).collect::<String>())
}
