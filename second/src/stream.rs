//! A stream: for each item its length as two bytes, the higher first, then
//! that many bytes; it ends with the input.

/// Why a stream can't be taken apart: it ends inside an item.
#[derive(Debug, PartialEq, Eq)]
pub struct CutOff;

pub fn push_item(stream: &mut Vec<u8>, item: &[u8]) {
    let length = u16::try_from(item.len()).expect("an item is shorter than 2^16 bytes");
    stream.extend_from_slice(&length.to_be_bytes());
    stream.extend_from_slice(item);
}

pub fn from_items<T: AsRef<[u8]>>(items: &[T]) -> Vec<u8> {
    let mut stream = Vec::new();
    for item in items {
        push_item(&mut stream, item.as_ref());
    }
    stream
}

pub fn items(stream: &[u8]) -> Result<Vec<&[u8]>, CutOff> {
    let mut items = Vec::new();
    let mut rest = stream;
    while !rest.is_empty() {
        let (length, after) = rest.split_first_chunk::<2>().ok_or(CutOff)?;
        let length = usize::from(u16::from_be_bytes(*length));
        let (item, after) = after.split_at_checked(length).ok_or(CutOff)?;
        items.push(item);
        rest = after;
    }
    Ok(items)
}

/// An item of a run stream: the ticks as four bytes, the higher first, then
/// the text.
pub fn run_item(ticks: u32, text: &[u8]) -> Vec<u8> {
    [ticks.to_be_bytes().as_slice(), text].concat()
}

pub fn split_run_item(item: &[u8]) -> Result<(u32, &[u8]), CutOff> {
    let (ticks, text) = item.split_first_chunk::<4>().ok_or(CutOff)?;
    Ok((u32::from_be_bytes(*ticks), text))
}
