//! PGM pictures with samples up to 1,023: P5 and P2 are read, P5 is written. In P5 a sample has one byte where the largest is
//! up to 255, and two, the more significant first, where it is above.

use luphwezane::GREATEST_SAMPLE;
use std::fs;
use std::path::Path;

/// A picture in row order.
#[derive(Debug, PartialEq)]
pub struct Picture {
    pub w: usize,
    pub h: usize,
    /// What the samples go up to; they are taken as they are.
    pub largest: u16,
    pub samples: Vec<u16>,
}

/// Reads a picture, or says what is wrong with the file.
pub fn read(path: &Path) -> Result<Picture, String> {
    let name = path.display();
    let bytes = fs::read(path).map_err(|error| format!("{name} cannot be read: {error}"))?;
    parse(&bytes).map_err(|what| format!("{name} {what}"))
}

pub fn write(path: &Path, w: usize, h: usize, largest: u16, samples: &[u16]) -> Result<(), String> {
    fs::write(path, file(w, h, largest, samples)).map_err(|error| format!("{} cannot be written: {error}", path.display()))
}

/// The bytes of a file. A sample above the largest becomes that one: the filter may pass it.
fn file(w: usize, h: usize, largest: u16, samples: &[u16]) -> Vec<u8> {
    let mut bytes = format!("P5\n{w} {h}\n{largest}\n").into_bytes();
    for &sample in samples {
        let [high, low] = sample.min(largest).to_be_bytes();
        if largest > 255 {
            bytes.push(high);
        }
        bytes.push(low);
    }
    bytes
}

fn parse(bytes: &[u8]) -> Result<Picture, String> {
    let binary = match bytes.get(..2) {
        Some(b"P5") => true,
        Some(b"P2") => false,
        _ => return Err("is not a PGM picture: it begins with neither P5 nor P2".into()),
    };
    let mut text = Text { bytes, at: 2 };
    let (w, h, largest) = (text.number("width")?, text.number("height")?, text.number("largest value")?);
    if !(1..=4096).contains(&w) || !(1..=4096).contains(&h) {
        return Err(format!("has {w} × {h} samples: 1 to 4,096 columns and rows are taken"));
    }
    if largest == 0 {
        return Err("is damaged: its largest value is 0".into());
    }
    let Some(largest) = u16::try_from(largest).ok().filter(|&largest| largest <= GREATEST_SAMPLE) else {
        return Err(format!("has samples up to {largest}: samples up to 1,023 are taken"));
    };
    let samples = if binary { text.binary(w * h, largest > 255)? } else { text.plain(w * h)? };
    match samples.iter().find(|&&sample| sample > largest) {
        Some(sample) => Err(format!("is damaged: a sample of {sample} where {largest} is the largest")),
        None => Ok(Picture { w, h, largest, samples }),
    }
}

struct Text<'a> {
    bytes: &'a [u8],
    at: usize,
}

impl Text<'_> {
    fn skip_blanks(&mut self) {
        while let Some(&byte) = self.bytes.get(self.at) {
            if byte == b'#' {
                let rest = &self.bytes[self.at..];
                self.at += rest.iter().position(|&byte| byte == b'\n').unwrap_or(rest.len());
            } else if byte.is_ascii_whitespace() {
                self.at += 1;
            } else {
                return;
            }
        }
    }

    /// The next decimal number, which stands after a blank.
    fn number(&mut self, what: &str) -> Result<usize, String> {
        let before = self.at;
        self.skip_blanks();
        let digits = self.bytes[self.at..].iter().take_while(|byte| byte.is_ascii_digit()).count();
        let number = std::str::from_utf8(&self.bytes[self.at..self.at + digits]).ok().and_then(|text| text.parse().ok());
        self.at += digits;
        number.filter(|_| self.at > before + digits).ok_or_else(|| format!("is damaged: its {what} is not a number"))
    }

    /// Samples of one byte, or of two.
    fn binary(&mut self, n: usize, two: bool) -> Result<Vec<u16>, String> {
        if !self.bytes.get(self.at).is_some_and(u8::is_ascii_whitespace) {
            return Err("is damaged: no blank before the samples".into());
        }
        let (bytes, size) = (&self.bytes[self.at + 1..], 1 + usize::from(two));
        match bytes.len() == n * size {
            true => Ok(bytes.chunks(size).map(|sample| sample.iter().fold(0, |high, &low| high << 8 | u16::from(low))).collect()),
            false => Err(format!("is damaged: {} bytes of samples where {} are needed", bytes.len(), n * size)),
        }
    }

    fn plain(&mut self, n: usize) -> Result<Vec<u16>, String> {
        let mut samples = Vec::with_capacity(n);
        for k in 0..n {
            let sample = self.number(&format!("sample {k} of {n}"))?;
            samples.push(u16::try_from(sample).map_err(|_| format!("is damaged: a sample of {sample}"))?);
        }
        self.skip_blanks();
        match self.at == self.bytes.len() {
            true => Ok(samples),
            false => Err("is damaged: something follows its last sample".into()),
        }
    }
}

#[cfg(test)]
mod tests {
    use super::*;

    fn picture(w: usize, h: usize, largest: u16, samples: &[u16]) -> Result<Picture, String> {
        Ok(Picture { w, h, largest, samples: samples.to_vec() })
    }

    #[test]
    fn both_kinds_are_read() {
        assert_eq!(parse(b"P5\n3 2\n255\n\x00\x01\x02\x0a\x20\xff"), picture(3, 2, 255, &[0, 1, 2, 10, 32, 255]));
        assert_eq!(parse(b"P5 # made\n# by hand\n 1\t1 # one\n9 \x09"), picture(1, 1, 9, &[9]));
        assert_eq!(parse(b"P2\n2 2\n200\n0 200\n7 # last row\n 8\n\n"), picture(2, 2, 200, &[0, 200, 7, 8]));
    }

    #[test]
    fn samples_above_255_have_two_bytes() {
        assert_eq!(parse(b"P5\n2 2\n1023\n\0\0\0\xff\x01\x02\x03\xff"), picture(2, 2, 1023, &[0, 255, 258, 1023]));
        assert_eq!(parse(b"P5\n1 1\n256\n\x01\0"), picture(1, 1, 256, &[256]));
        assert_eq!(parse(b"P2\n3 1\n1023\n0 256 1023"), picture(3, 1, 1023, &[0, 256, 1023]));
    }

    /// What is written is read again, but for samples above the largest, which become that one.
    #[test]
    fn samples_up_to_the_largest_are_written() {
        assert_eq!(file(2, 1, 255, &[7, 255]), b"P5\n2 1\n255\n\x07\xff");
        assert_eq!(file(2, 1, 1023, &[7, 1023]), b"P5\n2 1\n1023\n\0\x07\x03\xff");
        for largest in [1, 254, 255, 256, 257, 1022, 1023] {
            let samples: Vec<u16> = (0..6).map(|k| largest * k / 5).collect();
            assert_eq!(parse(&file(3, 2, largest, &samples)), picture(3, 2, largest, &samples));
            assert_eq!(
                parse(&file(2, 2, largest, &[0, largest, largest + 1, 65535])),
                picture(2, 2, largest, &[0, largest, largest, largest])
            );
        }
    }

    #[test]
    fn damage_is_named() {
        let wrong: [(&[u8], &str); 20] = [
            (b"", "is not a PGM picture: it begins with neither P5 nor P2"),
            (b"P6\n1 1\n255\n\0\0\0", "is not a PGM picture: it begins with neither P5 nor P2"),
            (b"P5", "is damaged: its width is not a number"),
            (b"P51 1\n255\n\0", "is damaged: its width is not a number"),
            (b"P5\n1 -1\n255\n\0", "is damaged: its height is not a number"),
            (b"P5\n1 99999999999999999999\n255\n\0", "is damaged: its height is not a number"),
            (b"P5\n1 0\n255\n", "has 1 × 0 samples: 1 to 4,096 columns and rows are taken"),
            (b"P5\n4097 1\n255\n", "has 4097 × 1 samples: 1 to 4,096 columns and rows are taken"),
            (b"P5\n1 1\n0\n\0", "is damaged: its largest value is 0"),
            (b"P5\n1 1\n1024\n\0\0", "has samples up to 1024: samples up to 1,023 are taken"),
            (b"P5\n1 1\n4095\n\0\0", "has samples up to 4095: samples up to 1,023 are taken"),
            (b"P5\n1 1\n65791\n\0", "has samples up to 65791: samples up to 1,023 are taken"),
            (b"P5\n2 1\n255\n\0", "is damaged: 1 bytes of samples where 2 are needed"),
            (b"P5\n1 1\n255\n\0\0", "is damaged: 2 bytes of samples where 1 are needed"),
            (b"P5\n1 1\n256\n\0", "is damaged: 1 bytes of samples where 2 are needed"),
            (b"P5\n1 1\n7\n\x08", "is damaged: a sample of 8 where 7 is the largest"),
            (b"P5\n1 1\n1000\n\x03\xe9", "is damaged: a sample of 1001 where 1000 is the largest"),
            (b"P2\n1 1\n255\n65536", "is damaged: a sample of 65536"),
            (b"P2\n2 1\n255\n1", "is damaged: its sample 1 of 2 is not a number"),
            (b"P2\n1 1\n255\n1 2", "is damaged: something follows its last sample"),
        ];
        for (bytes, what) in wrong {
            assert_eq!(parse(bytes), Err(what.to_string()), "{}", String::from_utf8_lossy(bytes));
        }
    }
}
