//! Words of a gateway's configuration, one by one. [`Configuration`](crate::Configuration) reads its lines.
//!
//! ```
//! use ipxr::settings;
//!
//! let range = settings::range("192.168.1.0/24").ok_or("no range")?;
//! assert_eq!((range.first, range.bits), ([192, 168, 1, 0], 24));
//! assert_eq!(settings::address_words(&settings::host([10, 0, 0, 5], 213)).as_deref(), Some("10.0.0.5:213"));
//! # Ok::<(), &str>(())
//! ```
use crate::sys;
use crate::Socket;
use alloc::string::String;
use alloc::vec;

/// An address with its port.
pub type Host = sys::ipxr_setting_host;
/// A link, as a line says it.
pub type LinkSetting = sys::ipxr_setting_link;
/// Addresses of IPv4 that begin with the same bits.
pub type Range = sys::ipxr_setting_range;
/// What one line says.
pub type Setting = sys::ipxr_setting;

/// An address of IPv4 with its port.
pub fn host(four: [u8; 4], port: u16) -> Host {
    Host { four, port, ..Host::ZERO }
}

/// Reads a line by itself. Returns what its words say up to the first that is wrong, and 0 or what was expected there, one of
/// `sys::IPXR_EXPECTED_..`
pub fn line(text: &str, has_cards: impl Into<u8>, is_below_tunnel: bool, most_clients: u16) -> (Setting, u8) {
    let mut said = Setting::ZERO;
    let (has_cards, is_below_tunnel) = (has_cards.into(), is_below_tunnel.into());
    // SAFETY: here and below pointers and lengths are those of slices and values that lie apart.
    let expected = unsafe { sys::ipxr_settings_line(text.as_ptr(), text.len(), has_cards, is_below_tunnel, most_clients, &mut said) };
    (said, expected)
}

/// The word of a line with that number, from 0.
pub fn word(text: &str, number: usize) -> Option<&str> {
    let mut start = 0;
    let length = unsafe { sys::ipxr_settings_word(text.as_ptr(), text.len(), number, &mut start) };
    if length > 0 {
        text.get(start..start + length)
    } else {
        None
    }
}

/// The socket that a word is, 1 to FFFF.
pub fn socket(word: &str) -> Option<Socket> {
    let number = unsafe { sys::ipxr_settings_socket(word.as_ptr(), word.len()) };
    (number > 0).then_some(Socket(number))
}

/// The range that a word is: an address of IPv4, alone or with /BITS behind it.
pub fn range(word: &str) -> Option<Range> {
    let mut range = Range::ZERO;
    unsafe { sys::ipxr_settings_range(word.as_ptr(), word.len(), &mut range) }.then_some(range)
}

/// An address with its port as a line has it, such as 10.0.0.5:213.
pub fn address_words(host: &Host) -> Option<String> {
    words(sys::IPXR_LONGEST_ADDRESS, |buffer, room| unsafe { sys::ipxr_settings_address_words(host, buffer, room) })
}

/// A link as a line has it, such as `qemu-udp 10.0.0.5:213 10.0.0.6:213 raw`. Nothing if it is no link.
pub fn link_words(link: &LinkSetting) -> Option<String> {
    words(sys::IPXR_LONGEST_LINK, |buffer, room| unsafe { sys::ipxr_settings_link_words(link, buffer, room) })
}

fn words(room: usize, write: impl FnOnce(*mut u8, usize) -> usize) -> Option<String> {
    let mut bytes = vec![0; room];
    let length = write(bytes.as_mut_ptr(), room);
    bytes.truncate(length);
    if length > 0 {
        String::from_utf8(bytes).ok()
    } else {
        None
    }
}
