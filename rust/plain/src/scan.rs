//! The scanner: blanks, comments, strings, words and numbers of a definition.

use crate::MAX_LEVEL;
use std::num::NonZeroU8;

/// A refusal: its number and its place. The number is never 0, so that an outcome without a value fits two registers.
#[derive(Clone, Copy, Debug, PartialEq, Eq)]
pub(crate) struct Fault {
    pub number: NonZeroU8,
    pub place: usize,
}

pub(crate) type Outcome<T> = Result<T, Fault>;

#[cold]
pub(crate) fn fault<T>(number: u8, place: usize) -> Outcome<T> {
    Err(Fault { number: NonZeroU8::new(number).expect("a refusal"), place })
}

/// Eight bytes at once: what a search asks of a word. The lowest flagged byte of an answer is one that was looked for.
pub(crate) mod lanes {
    const LOW: u64 = 0x0101_0101_0101_0101;
    const HIGH: u64 = 0x8080_8080_8080_8080;

    #[inline(always)]
    fn zero(v: u64) -> u64 {
        v.wrapping_sub(LOW) & !v & HIGH
    }

    /// Bytes equal to x.
    #[inline(always)]
    pub fn equal(v: u64, x: u8) -> u64 {
        zero(v ^ (LOW * x as u64))
    }
}

/// The first place from `from` on that `flags` flags, or the length.
#[inline(always)]
pub(crate) fn find(b: &[u8], from: usize, flags: impl Fn(u64) -> u64) -> usize {
    let Some(rest) = b.get(from..) else { return b.len() };
    let (words, last) = rest.as_chunks::<8>();
    let mut i = 0;
    while let Some(word) = words.get(i) {
        let met = flags(u64::from_le_bytes(*word));
        if met != 0 {
            return from + 8 * i + met.trailing_zeros() as usize / 8;
        }
        i += 1;
        // Most runs are short; a longer one goes on by four words at a time.
        if i % 4 == 0 {
            while let Some(four) = words[i..].first_chunk::<4>() {
                if four.iter().fold(0, |any, word| any | flags(u64::from_le_bytes(*word))) != 0 {
                    break;
                }
                i += 4;
            }
        }
    }
    // The last bytes, filled up with nothing that counts.
    let mut word = [0; 8];
    word[..last.len()].copy_from_slice(last);
    let met = flags(u64::from_le_bytes(word)).trailing_zeros() as usize / 8;
    from + 8 * words.len() + met.min(last.len())
}

/// A bit for each of sixteen bytes, the first byte's lowest. The bits are gathered by halves and asked by an order (`x < c`, `x > c`): so
/// written they become one instruction of the processor.
#[inline(always)]
pub(crate) fn bits_of(block: &[u8; 16], asked: impl Fn(u8) -> bool) -> u16 {
    let half = |half: &[u8]| half.iter().rev().fold(0u8, |bits, &x| bits << 1 | asked(x) as u8);
    u16::from_le_bytes([half(&block[..8]), half(&block[8..])])
}

/// Whether no byte is below 32. N is a multiple of sixteen.
#[inline(always)]
fn clear<const N: usize>(block: &[u8; N]) -> bool {
    let mut least = [u8::MAX; 16];
    for sixteen in block.as_chunks::<16>().0 {
        for (least, &x) in least.iter_mut().zip(sixteen) {
            *least = x.min(*least);
        }
    }
    least.iter().fold(true, |clear, &x| clear & (x >= 32))
}

/// The bytes below 32 from a place on, from the left.
pub(crate) struct Lows<'a> {
    /// What stands behind the sixteen bytes whose bits, as far as they were not handed out, are here.
    rest: &'a [u8],
    bits: u16,
    /// Where those sixteen start.
    block: usize,
    length: usize,
}

impl<'a> Lows<'a> {
    #[inline]
    pub fn new(bytes: &'a [u8], from: usize) -> Self {
        let from = from.min(bytes.len());
        Lows { rest: &bytes[from..], bits: 0, block: from, length: bytes.len() }
    }

    /// The place of the next one, or the length.
    #[inline]
    pub fn next(&mut self) -> usize {
        if self.bits == 0 && !self.seek() {
            return self.length;
        }
        let place = self.block + self.bits.trailing_zeros() as usize;
        self.bits &= self.bits - 1;
        place
    }

    /// Goes on to the next sixteen bytes that have one, if there are such: by sixteen where one is near, by more where none is.
    #[inline(never)]
    fn seek(&mut self) -> bool {
        let mut rest = self.rest;
        let mut passed = 0;
        while let Some((block, behind)) = rest.split_first_chunk::<64>()
            && clear(block)
        {
            rest = behind;
            passed += 1;
            if passed == 2 {
                passed = 0;
                while let Some((block, behind)) = rest.split_first_chunk::<256>()
                    && clear(block)
                {
                    rest = behind;
                }
            }
        }
        while let Some((block, behind)) = rest.split_first_chunk::<16>() {
            self.bits = bits_of(block, |x| x < 32);
            if self.bits != 0 {
                self.block = self.length - rest.len();
                self.rest = behind;
                return true;
            }
            rest = behind;
        }
        // The last bytes, filled up with nothing that counts.
        let mut block = [u8::MAX; 16];
        block[..rest.len()].copy_from_slice(rest);
        self.bits = bits_of(&block, |x| x < 32);
        self.block = self.length - rest.len();
        self.rest = &[];
        self.bits != 0
    }
}

/// The first byte below 32 from `from` on, or the length.
#[inline]
pub(crate) fn find_low(b: &[u8], from: usize) -> usize {
    Lows::new(b, from).next()
}

/// A run of digits. Its true value may be of any length; `value` holds it up to eighteen significant digits.
#[derive(Clone, Copy)]
pub(crate) struct Number {
    pub place: usize,
    pub end: usize,
    /// Digits as written.
    pub count: usize,
    /// Digits without the zeros in front.
    significant: usize,
    value: u64,
}

impl Number {
    /// The true value, or the greatest u64 where it has more than eighteen digits.
    pub fn capped(&self) -> u64 {
        if self.significant > 18 { u64::MAX } else { self.value }
    }
}

/// A run of digits, points, `+` and `-`.
#[derive(Clone, Copy)]
pub(crate) struct Figure {
    pub place: usize,
    pub end: usize,
    /// Digits only.
    pub plain: bool,
    /// An optional `-`, digits, an optional point, at least one digit.
    pub form: bool,
    pub point: bool,
    /// A point with no digit before it.
    pub bare: bool,
    /// Digits behind the point.
    pub decimals: usize,
    minus: bool,
    significant: usize,
    value: u64,
}

impl Figure {
    /// The scaled magnitude, or the greatest u64 where it has more than eighteen digits.
    pub fn capped(&self) -> u64 {
        if self.significant > 18 { u64::MAX } else { self.value }
    }

    /// The scaled value; only for magnitudes that fit.
    pub fn scaled(&self) -> i64 {
        let m = self.value as i64;
        if self.minus { -m } else { m }
    }

    fn negative(&self) -> bool {
        self.minus && self.significant > 0
    }
}

pub(crate) struct Scan<'a> {
    pub bytes: &'a [u8],
    pub at: usize,
}

impl Scan<'_> {
    /// Past spaces and dropped bytes.
    #[inline]
    pub fn blank(&mut self) {
        let mut rest = self.bytes.get(self.at..).unwrap_or(&[]);
        while let Some((block, behind)) = rest.split_first_chunk::<16>() {
            let bits = bits_of(block, |x| x > 32);
            if bits != 0 {
                self.at = self.bytes.len() - rest.len() + bits.trailing_zeros() as usize;
                return;
            }
            rest = behind;
        }
        self.at = self.bytes.len() - rest.len() + rest.iter().take_while(|&&x| x <= 32).count();
    }

    /// Past spaces, dropped bytes and comments.
    #[inline(always)]
    pub fn gap(&mut self) -> Outcome<()> {
        match self.bytes.get(self.at) {
            Some(&x) if x > 32 && x != b'<' => Ok(()),
            _ => self.longer_gap(),
        }
    }

    #[inline(never)]
    fn longer_gap(&mut self) -> Outcome<()> {
        // Often one space.
        if let Some(&[b' ', x]) = self.bytes[self.at..].first_chunk::<2>()
            && x > 32
            && x != b'<'
        {
            self.at += 1;
            return Ok(());
        }
        self.blank();
        if self.bytes.get(self.at) == Some(&b'<') { self.comments() } else { Ok(()) }
    }

    #[inline(never)]
    fn comments(&mut self) -> Outcome<()> {
        while self.bytes.get(self.at) == Some(&b'<') {
            self.comment()?;
            self.blank();
        }
        Ok(())
    }

    fn comment(&mut self) -> Outcome<()> {
        let outer = self.at;
        let mut level = 1;
        self.at += 1;
        loop {
            self.at =
                find(self.bytes, self.at, |v| lanes::equal(v, b'<') | lanes::equal(v, b'>') | lanes::equal(v, b'"'));
            match self.bytes.get(self.at) {
                None => return fault(3, outer),
                Some(b'"') => {
                    self.at += 1;
                    self.string(outer)?;
                }
                Some(b'<') => {
                    if level == MAX_LEVEL {
                        return fault(3, self.at);
                    }
                    level += 1;
                    self.at += 1;
                }
                Some(_) => {
                    level -= 1;
                    self.at += 1;
                    if level == 0 {
                        return Ok(());
                    }
                }
            }
        }
    }

    /// The rest of a string, from behind its opening quote to behind its closing one. `outer` is the outermost open mark.
    fn string(&mut self, outer: usize) -> Outcome<()> {
        loop {
            self.at = find(self.bytes, self.at, |v| lanes::equal(v, b'"') | lanes::equal(v, b'{'));
            match self.bytes.get(self.at) {
                None => return fault(3, outer),
                Some(b'"') => {
                    self.at += 1;
                    return Ok(());
                }
                Some(_) => self.brace(outer)?,
            }
        }
    }

    fn brace(&mut self, outer: usize) -> Outcome<()> {
        // Mostly a quote or a brace.
        if let Some([_, b'"' | b'{', b'}']) = self.bytes[self.at..].first_chunk() {
            self.at += 3;
            return Ok(());
        }
        let open = self.at;
        self.at += 1;
        match self.kept(outer)? {
            b'"' | b'{' => {
                if self.kept(outer)? != b'}' {
                    return fault(3, open);
                }
            }
            b'N' => {
                if self.kept(outer)? != b'L' || self.kept(outer)? != b'}' {
                    return fault(3, open);
                }
            }
            first => {
                let mut x = first;
                loop {
                    if !x.is_ascii_hexdigit() || !self.kept(outer)?.is_ascii_hexdigit() {
                        return fault(3, open);
                    }
                    x = self.kept(outer)?;
                    if x == b'}' {
                        break;
                    }
                }
            }
        }
        Ok(())
    }

    /// The next byte that isn't dropped.
    fn kept(&mut self, outer: usize) -> Outcome<u8> {
        while let Some(&x) = self.bytes.get(self.at) {
            self.at += 1;
            if x >= 32 {
                return Ok(x);
            }
        }
        fault(3, outer)
    }

    /// A string that is due: its text's place and length.
    #[inline]
    pub fn text(&mut self) -> Outcome<(usize, usize)> {
        // Mostly one space before it.
        if self.bytes.get(self.at..).and_then(|rest| rest.first_chunk()) == Some(b" \"") {
            self.at += 1;
        } else {
            self.gap()?;
            if self.bytes.get(self.at) != Some(&b'"') {
                return fault(2, self.at);
            }
        }
        let open = self.at;
        self.at += 1;
        self.string(open)?;
        Ok((open + 1, self.at - open - 2))
    }

    /// Whether this word stands here; if so, past it. The word is in capitals.
    #[inline(always)]
    pub fn word<const N: usize>(&mut self, word: &[u8; N]) -> bool {
        match self.bytes.get(self.at) {
            Some(x) if x & 0xdf == word[0] => self.rest_of_word(word),
            _ => false,
        }
    }

    #[inline]
    fn rest_of_word<const N: usize>(&mut self, word: &[u8; N]) -> bool {
        if let Some(here) = self.bytes[self.at..].first_chunk::<N>() {
            // Mostly in capitals.
            if here == word {
                self.at += N;
                return true;
            }
            let mut unlike = 0;
            for i in 0..N {
                unlike |= (here[i] & 0xdf) ^ word[i];
            }
            if unlike == 0 {
                self.at += N;
                return true;
            }
        }
        self.word_with_dropped(word)
    }

    fn word_with_dropped(&mut self, word: &[u8]) -> bool {
        let mut p = self.at;
        for &c in word {
            while p < self.bytes.len() && self.bytes[p] < 32 {
                p += 1;
            }
            if p == self.bytes.len() || self.bytes[p] & 0xdf != c {
                return false;
            }
            p += 1;
        }
        self.at = p;
        true
    }

    /// A word that is due, after blanks and comments.
    #[inline]
    pub fn due<const N: usize>(&mut self, word: &[u8; N]) -> Outcome<()> {
        self.gap()?;
        if self.word(word) { Ok(()) } else { fault(2, self.at) }
    }

    /// The number of the digits that stand here, if they are up to fifteen without a zero in front, and where they end: at a space or a
    /// byte above the digits, or at a line's end and such a byte, so that they are all of a number or figure.
    #[inline]
    fn plain_digits(&self) -> Option<(u64, usize)> {
        let here = self.bytes.get(self.at..)?;
        let mut value = 0;
        for (i, &x) in here.iter().take(16).enumerate() {
            let d = x.wrapping_sub(b'0');
            if d > 9 {
                let next = if let Some(&[b'\r', b'\n', next]) = here[i..].first_chunk() { next } else { x };
                let plain = i > 0 && (next == b' ' || next > b'9') && here[0] != b'0';
                return plain.then_some((value, self.at + i));
            }
            value = value * 10 + d as u64;
        }
        None
    }

    /// A number that is due, after blanks and comments.
    #[inline]
    pub fn number(&mut self) -> Outcome<Number> {
        self.gap()?;
        if let Some((value, end)) = self.plain_digits() {
            let (place, count) = (self.at, end - self.at);
            self.at = end;
            return Ok(Number { place, end, count, significant: count, value });
        }
        self.longer_number()
    }

    fn longer_number(&mut self) -> Outcome<Number> {
        let mut n = Number { place: self.at, end: 0, count: 0, significant: 0, value: 0 };
        while let Some(&x) = self.bytes.get(self.at) {
            let d = x.wrapping_sub(b'0');
            if d < 10 {
                n.count += 1;
                n.significant += (n.significant > 0 || d != 0) as usize;
                if n.significant <= 18 {
                    n.value = n.value * 10 + d as u64;
                }
            } else if x >= 32 {
                break;
            }
            self.at += 1;
        }
        n.end = self.at;
        if n.count == 0 { fault(2, n.place) } else { Ok(n) }
    }

    /// The run of digits, points, `+` and `-` that stands here, if there is one.
    #[inline]
    pub fn figure(&mut self) -> Option<Figure> {
        if let Some((value, end)) = self.plain_digits() {
            let (place, significant) = (self.at, end - self.at);
            self.at = end;
            let (plain, form, point, bare, minus) = (true, true, false, false, false);
            return Some(Figure { place, end, plain, form, point, bare, decimals: 0, minus, significant, value });
        }
        self.longer_figure()
    }

    fn longer_figure(&mut self) -> Option<Figure> {
        let mut f = Figure {
            place: self.at,
            end: 0,
            plain: true,
            form: true,
            point: false,
            bare: false,
            decimals: 0,
            minus: false,
            significant: 0,
            value: 0,
        };
        let mut digits = 0usize;
        let mut count = 0usize;
        while let Some(&x) = self.bytes.get(self.at) {
            let d = x.wrapping_sub(b'0');
            if d < 10 {
                digits += 1;
                f.decimals += f.point as usize;
                f.significant += (f.significant > 0 || d != 0) as usize;
                if f.significant <= 18 {
                    f.value = f.value * 10 + d as u64;
                }
            } else if x >= 32 {
                match x {
                    b'.' => {
                        f.form &= !f.point;
                        f.point = true;
                        f.bare = digits == 0;
                    }
                    b'-' => {
                        f.form &= count == 0;
                        f.minus = true;
                    }
                    b'+' => f.form = false,
                    _ => break,
                }
                f.plain = false;
            } else {
                self.at += 1;
                continue;
            }
            count += 1;
            self.at += 1;
        }
        f.end = self.at;
        f.form &= digits > 0;
        if count == 0 { None } else { Some(f) }
    }

    /// A figure that is due, after blanks and comments.
    #[inline]
    pub fn figure_due(&mut self) -> Outcome<Figure> {
        self.gap()?;
        let place = self.at;
        match self.figure() {
            Some(f) => Ok(f),
            None => fault(2, place),
        }
    }

    /// Whether number a is above number b, by their true values.
    pub fn above(&self, a: &Number, b: &Number) -> bool {
        self.magnitude_above((a.place, a.end, a.significant, a.value), (b.place, b.end, b.significant, b.value))
    }

    /// Whether figure a is above figure b, by their true values. Both have form and as many decimals.
    pub fn figure_above(&self, a: &Figure, b: &Figure) -> bool {
        let x = (a.place, a.end, a.significant, a.value);
        let y = (b.place, b.end, b.significant, b.value);
        match (a.negative(), b.negative()) {
            (false, false) => self.magnitude_above(x, y),
            (true, true) => self.magnitude_above(y, x),
            (negative, _) => !negative,
        }
    }

    fn magnitude_above(&self, a: (usize, usize, usize, u64), b: (usize, usize, usize, u64)) -> bool {
        if a.2 != b.2 {
            return a.2 > b.2;
        }
        if a.2 <= 18 {
            return a.3 > b.3;
        }
        let x = self.bytes[a.0..a.1].iter().filter(|x| x.is_ascii_digit()).skip_while(|&&x| x == b'0');
        let y = self.bytes[b.0..b.1].iter().filter(|x| x.is_ascii_digit()).skip_while(|&&x| x == b'0');
        x.gt(y)
    }

    /// Whether the kept bytes from place `from` to here are these.
    pub fn reads(&self, from: usize, text: &[u8]) -> bool {
        self.bytes[from..self.at].iter().filter(|&&x| x >= 32).eq(text.iter())
    }
}
