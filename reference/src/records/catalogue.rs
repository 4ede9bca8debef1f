//! Catalogue records: refusal 13.

/// How many views there may be.
const VIEWS: usize = 16;

/// The words of each view, or the number of the refusal.
pub fn catalogue(words: &[u16]) -> Result<Vec<&[u16]>, u16> {
    let Some(&count) = words.first() else {
        return Err(13);
    };
    let count = usize::from(count);
    if count == 0 || count > VIEWS || words.len() < 1 + count {
        return Err(13);
    }
    let lengths: Vec<usize> = words[1..=count].iter().map(|&word| word.into()).collect();
    if words.len() != 1 + count + lengths.iter().sum::<usize>() {
        return Err(13);
    }
    let start = |view: usize| 1 + count + lengths[..view].iter().sum::<usize>();
    let view = |view| &words[start(view)..start(view + 1)];
    Ok((0..count).map(view).collect())
}
