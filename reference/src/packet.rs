//! The lent store in which a packet is put together: I210 data sheet, section
//! 10.5.7.

/// The longest packet; bytes of the store past it never change.
pub const LONGEST_PACKET: u64 = 1536;
/// The shortest packet that the network part is handed, to which it adds four
/// check bytes; a shorter one is filled up to it.
pub const SHORTEST_SENT: u64 = 60;

/// Writes a fragment at a place of the store; writes nothing where its end
/// would lie past the longest packet or past the store.
pub fn append(store: &mut [u8], at: u64, fragment: &[u8]) {
    let end = at.saturating_add(fragment.len() as u64);
    if end <= LONGEST_PACKET && end <= store.len() as u64 {
        store[at as usize..end as usize].copy_from_slice(fragment);
    }
}

/// Fills a packet of a length up to the shortest one with zeros; changes
/// nothing where it needs no fill or the store has no room for it.
pub fn fill(store: &mut [u8], length: u64) {
    if length < SHORTEST_SENT && store.len() as u64 >= SHORTEST_SENT {
        store[length as usize..SHORTEST_SENT as usize].fill(0);
    }
}

/// The first bytes of the store up to a length; no bytes where the length is
/// above the longest packet or above the store.
pub fn shown(store: &[u8], length: u64) -> &[u8] {
    if length > LONGEST_PACKET || length > store.len() as u64 {
        return &[];
    }
    &store[..length as usize]
}
