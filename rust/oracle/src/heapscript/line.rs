//! A line of `heapscript`: a word, then fields, each after exactly one space.

/// A command; its fields are named as in document 01.
#[derive(Debug, PartialEq, Eq)]
pub(super) enum Line<'a> {
    Str(&'a [u8]),
    Tab(u32, u32),
    Ud,
    Push(u32),
    Pop,
    Seti(u32, u32, u32),
    Setn(u32, u32, u32, u32),
    Meta(u32, u32),
    Collect,
}

/// The command of a line; none if it is a bad one.
pub(super) fn read(line: &[u8]) -> Option<Line<'_>> {
    let space = line.iter().position(|byte| *byte == b' ');
    let (word, rest) = match space {
        Some(at) => (&line[..at], Some(&line[at + 1..])),
        None => (line, None),
    };
    Some(match word {
        b"str" => Line::Str(rest?),
        b"tab" => numbers(rest).map(|[a, n]| Line::Tab(a, n))?,
        b"ud" => numbers(rest).map(|[]| Line::Ud)?,
        b"push" => numbers(rest).map(|[k]| Line::Push(k))?,
        b"pop" => numbers(rest).map(|[]| Line::Pop)?,
        b"seti" => numbers(rest).map(|[t, i, k]| Line::Seti(t, i, k))?,
        b"setn" => numbers(rest).map(|[t, j, k, v]| Line::Setn(t, j, k, v))?,
        b"meta" => numbers(rest).map(|[k, t]| Line::Meta(k, t))?,
        b"collect" => numbers(rest).map(|[]| Line::Collect)?,
        _ => return None,
    })
}

/// Exactly so many numbers; without a rest there is no field at all.
fn numbers<const N: usize>(rest: Option<&[u8]>) -> Option<[u32; N]> {
    let fields = rest.map(|rest| rest.split(|byte| *byte == b' '));
    let numbers: Option<Vec<u32>> = fields.into_iter().flatten().map(number).collect();
    numbers?.try_into().ok()
}

/// Decimal digits, one at least, up to 2^32 - 1; zeros may stand before.
fn number(field: &[u8]) -> Option<u32> {
    let more = |sum: u32, byte: &u8| {
        let digit = byte.is_ascii_digit().then(|| u32::from(byte - b'0'))?;
        sum.checked_mul(10)?.checked_add(digit)
    };
    if field.is_empty() {
        return None;
    }
    field.iter().try_fold(0, more)
}
