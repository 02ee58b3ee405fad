//! Bytes as one string of bits, counted as appendix A counts them: bit 0 is the most significant (A.2.1).

/// Gives the number that the bits at `place` make.
pub fn take(bytes: &[u8], place: usize, width: usize) -> usize {
    let end = place + width;
    let reached = &bytes[place / 8..(end + 7) / 8];
    let number = reached.iter().fold(0, |number, &byte| number << 8 | usize::from(byte));
    number >> (8 * reached.len() - place % 8 - width) & !(usize::MAX << width)
}

/// Gives the numbers of fields that follow one another from bit 0 on.
pub fn take_fields(bytes: &[u8], widths: &[usize]) -> Vec<usize> {
    let mut cursor = 0;
    let mut next = |&width| {
        cursor += width;
        take(bytes, cursor - width, width)
    };
    widths.iter().map(&mut next).collect()
}

/// Gives the bytes of fields that follow one another from bit 0 on, the low bits of each number.
pub fn lay_fields(widths: &[usize], numbers: &[usize]) -> Vec<u8> {
    assert_eq!(widths.len(), numbers.len());
    let mut bytes = Vec::with_capacity(widths.iter().sum::<usize>() / 8);
    let (mut laid, mut waiting) = (0, 0);
    for (&width, &number) in widths.iter().zip(numbers) {
        laid = laid << width | number & !(usize::MAX << width);
        waiting += width;
        while waiting >= 8 {
            waiting -= 8;
            bytes.push((laid >> waiting) as u8);
        }
    }
    bytes
}
