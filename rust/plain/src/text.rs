//! A text of a definition decoded: its signs, a byte or a break each.

/// The number of a break, beside the bytes 0 to 255.
pub const BREAK: i64 = 256;

/// The next byte that is not dropped.
#[inline(always)]
fn next(text: &[u8], at: &mut usize) -> Option<u8> {
    while let Some(&x) = text.get(*at) {
        *at += 1;
        if x >= 32 {
            return Some(x);
        }
    }
    None
}

#[inline(always)]
fn hex(x: u8) -> Option<i64> {
    match x {
        b'0'..=b'9' => Some((x - b'0') as i64),
        b'A'..=b'F' => Some((x - b'A') as i64 + 10),
        b'a'..=b'f' => Some((x - b'a') as i64 + 10),
        _ => None,
    }
}

/// What stands behind an opening brace, up to its closing one.
#[inline(always)]
fn form(text: &[u8], at: &mut usize, give: &mut impl FnMut(i64)) -> Option<()> {
    let first = next(text, at)?;
    match first {
        b'"' | b'{' => give(first as i64),
        b'N' => {
            if next(text, at)? != b'L' {
                return None;
            }
            give(BREAK);
        }
        mut high => loop {
            let pair = hex(high)? * 16 + hex(next(text, at)?)?;
            give(pair);
            high = next(text, at)?;
            if high == b'}' {
                return Some(());
            }
        },
    }
    (next(text, at)? == b'}').then_some(())
}

/// Hands each sign of a text's inside on, as far as it is one: none where a quote or a form stops it.
#[inline(always)]
fn signs(text: &[u8], mut give: impl FnMut(i64)) -> Option<()> {
    let mut at = 0;
    while at < text.len() {
        let x = text[at];
        at += 1;
        if x == b'"' {
            return None;
        }
        if x == b'{' {
            form(text, &mut at, &mut give)?;
        } else if x >= 32 {
            give(x as i64);
        }
    }
    Some(())
}

/// Decodes the text of that length from that place of a definition of either kind into the start of the list: how many signs it has;
/// or 3 where those bytes are not the inside of a text, 25 where the list is too short for it.
pub fn decode_text(def: &[u8], place: u64, length: u64, list: &mut [i64]) -> Result<usize, u32> {
    if crate::is_xml(def) {
        return crate::decode_xml(def, place, length, list);
    }
    let inside =
        usize::try_from(place).ok().and_then(|p| def.get(p..)).and_then(|d| d.get(..usize::try_from(length).ok()?));
    let text = inside.ok_or(3u32)?;
    let mut count = 0;
    signs(text, |_| count += 1).ok_or(3u32)?;
    let list = list.get_mut(..count).ok_or(25u32)?;
    let mut slots = list.iter_mut();
    signs(text, |sign| {
        if let Some(slot) = slots.next() {
            *slot = sign;
        }
    });
    Ok(count)
}
