//! Cookies and nodes that nobody can guess.
use crate::{KeyedSender, Node, Place, Sender};

const FIRST: [u64; 4] = [0x736F_6D65_7073_6575, 0x646F_7261_6E64_6F6D, 0x6C79_6765_6E65_7261, 0x7465_6462_7974_6573];
const NODE: u8 = 2;
const COOKIE: u8 = 6;
const MINUTE: u64 = 60;

/// What a server of a tunnel makes of the place where a datagram comes from: keyed hashes, by SipHash-2-4, as the gateway of this project
/// makes them. Take a key of sixteen random bytes and keep it in a file: by another one clients have other nodes, and have to connect
/// again. This is plain Rust, which is tested and not proved.
///
/// ```
/// use ipxr::{Keys, Place};
///
/// let keys = Keys::new([7; 16]); // yours: random, and secret
/// let place: Place = "192.168.1.7:2130".parse()?;
/// assert_eq!(keys.node(place).0[0], 2);
/// let sender = keys.keyed_sender(place, 600); // for `Keyed::hear`, in second 600 of your clock
/// assert_eq!((sender.node, sender.current), (keys.node(place), keys.cookie(place, 10)));
/// # Ok::<(), ipxr::WrongText>(())
/// ```
#[derive(Clone)]
pub struct Keys([u64; 2]);

impl Keys {
    /// The keys of sixteen secret bytes.
    pub fn new(key: [u8; 16]) -> Keys {
        let (low, high) = key.split_at(8);
        Keys([word(low), word(high)])
    }

    /// The node of a place, for [`Keyed`](crate::Keyed).
    pub fn node(&self, place: Place) -> Node {
        six(NODE, self.hash(&place.0))
    }

    /// The cookie of a place in a minute.
    pub fn cookie(&self, place: Place, minute: u64) -> Node {
        let mut text = [0; 14];
        text[..6].copy_from_slice(&place.0);
        text[6..].copy_from_slice(&minute.to_be_bytes());
        six(COOKIE, self.hash(&text))
    }

    /// What [`Tunnel::hear`](crate::Tunnel::hear) takes for a datagram of a place, in a second of any clock that goes on. He isn't trusted.
    pub fn sender(&self, place: Place, seconds: u64) -> Sender {
        let minute = seconds / MINUTE;
        let (current, previous) = (self.cookie(place, minute), self.cookie(place, minute.saturating_sub(1)));
        Sender { place, current, previous, is_trusted: false }
    }

    /// The same for [`Keyed::hear`](crate::Keyed::hear). He has no former node, and may register.
    pub fn keyed_sender(&self, place: Place, seconds: u64) -> KeyedSender {
        let Sender { current, previous, is_trusted, .. } = self.sender(place, seconds);
        let node = self.node(place);
        KeyedSender { place, node, former: node, current, previous, is_trusted, may_register: true }
    }

    /// SipHash-2-4 of some bytes.
    fn hash(&self, bytes: &[u8]) -> u64 {
        let [low, high] = self.0;
        let mut state = [FIRST[0] ^ low, FIRST[1] ^ high, FIRST[2] ^ low, FIRST[3] ^ high];
        let whole = bytes.chunks_exact(8);
        // (the last word has what is left, and at its top how long the text is)
        let last = word(whole.remainder()) | (bytes.len() as u64) << 56;
        whole.map(word).chain([last]).for_each(|it| take(&mut state, it));
        state[2] ^= 0xFF;
        mix(&mut state, 4);
        state[0] ^ state[1] ^ state[2] ^ state[3]
    }
}

/// The word of at most eight bytes, the lowest first.
fn word(bytes: &[u8]) -> u64 {
    bytes.iter().rev().fold(0, |word, byte| word << 8 | u64::from(*byte))
}

fn take(state: &mut [u64; 4], word: u64) {
    state[3] ^= word;
    mix(state, 2);
    state[0] ^= word;
}

fn mix([a, b, c, d]: &mut [u64; 4], rounds: u32) {
    for _ in 0..rounds {
        *a = a.wrapping_add(*b);
        *c = c.wrapping_add(*d);
        *b = b.rotate_left(13) ^ *a;
        *d = d.rotate_left(16) ^ *c;
        *a = a.rotate_left(32).wrapping_add(*d);
        *c = c.wrapping_add(*b);
        *d = d.rotate_left(21) ^ *a;
        *b = b.rotate_left(17) ^ *c;
        *c = c.rotate_left(32);
    }
}

/// Six bytes: the first one, and five of a hash.
fn six(first: u8, hash: u64) -> Node {
    let [_, a, b, c, d, e, ..] = hash.to_le_bytes();
    Node([first, a, b, c, d, e])
}

#[cfg(test)]
mod tests {
    use super::*;

    /// The hash of the bytes 0 to 14 by the key 0 to 15, as its authors give it.
    #[test]
    fn hash_is_as_published() {
        let (mut key, mut bytes) = ([0; 16], [0; 15]);
        key.iter_mut().zip(0..).for_each(|(it, number)| *it = number);
        bytes.iter_mut().zip(0..).for_each(|(it, number)| *it = number);
        assert_eq!(Keys::new(key).hash(&bytes), 0xA129_CA61_49BE_45E5);
    }
}
