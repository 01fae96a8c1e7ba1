//! Many recordings in one stream: for each a line with its length in bytes, then exactly that many bytes.

pub fn write<'a>(recordings: impl Iterator<Item = &'a [u8]>) -> Vec<u8> {
    let mut batch = Vec::new();
    for recording in recordings {
        batch.extend(format!("{}\n", recording.len()).bytes());
        batch.extend(recording);
    }
    batch
}

pub fn read(mut batch: &[u8]) -> Result<Vec<&[u8]>, String> {
    let mut recordings = Vec::new();
    while !batch.is_empty() {
        let (length, rest) = split_length(batch).ok_or("a length line is missing or wrong")?;
        if length > rest.len() {
            return Err(format!("{length} bytes were announced, {} are left", rest.len()));
        }
        let (recording, rest) = rest.split_at(length);
        recordings.push(recording);
        batch = rest;
    }
    Ok(recordings)
}

fn split_length(batch: &[u8]) -> Option<(usize, &[u8])> {
    let newline = batch.iter().position(|&byte| byte == b'\n')?;
    let length = std::str::from_utf8(&batch[..newline]).ok()?.parse().ok()?;
    Some((length, &batch[newline + 1..]))
}
