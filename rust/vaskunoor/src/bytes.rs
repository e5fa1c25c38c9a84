//! Records written to bytes, and bytes read by position, 0 past the end. Assumes that what is read was found to be in order before.

pub const NETWORK: u16 = 1;
pub const CIRCUIT: u16 = 2;
pub const OFFSETS: u16 = 3;
pub const LINE: u16 = 4;
pub const END: u16 = 5;

/// Puts a record behind those that are there. Every body here has at most 260 bytes, so its length fits.
pub fn put_record(bytes: &mut Vec<u8>, kind: u16, body: &[u8]) {
    bytes.extend((body.len() as u16).to_le_bytes());
    bytes.extend(kind.to_le_bytes());
    bytes.extend(body);
}

pub fn byte(bytes: &[u8], at: usize) -> u8 {
    bytes.get(at).copied().unwrap_or(0)
}

pub fn word(bytes: &[u8], at: usize) -> u16 {
    u16::from_le_bytes([byte(bytes, at), byte(bytes, at + 1)])
}

/// The bodies of the records of this kind, up to the end record.
pub fn bodies(bytes: &[u8], kind: u16) -> impl Iterator<Item = &[u8]> {
    records(bytes).take_while(|&(found, _)| found != END).filter(move |&(found, _)| found == kind).map(|(_, body)| body)
}

/// The records as kind and body, each as far as the file goes.
fn records(bytes: &[u8]) -> impl Iterator<Item = (u16, &[u8])> {
    let mut rest = bytes;
    std::iter::from_fn(move || {
        let (head, behind) = rest.split_at_checked(crate::sizes::HEAD_SIZE)?;
        let (body, next) = behind.split_at(behind.len().min(word(head, 0).into()));
        rest = next;
        Some((word(head, 2), body))
    })
}
