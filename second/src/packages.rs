//! The fixed table of packages, numbered 0, 1, 2 in the paper's order.

pub const COUNT: usize = 3;

pub const NAMES: [&str; COUNT] = ["presence", "message-summary", "dialog"];

pub const CONTENT_TYPES: [&str; COUNT] = [
    "application/pidf+xml",
    "application/simple-message-summary",
    "application/dialog-info+xml",
];

pub const LEAST: [u32; COUNT] = [60, 300, 60];
pub const DEFAULT: [u32; COUNT] = [3600, 3600, 600];
pub const MOST: [u32; COUNT] = [3600, 7200, 3600];

/// The number of the package with that name, compared byte by byte.
pub fn package_named(name: &[u8]) -> Option<usize> {
    NAMES.iter().position(|listed| listed.as_bytes() == name)
}

/// Requested time is Expires, or the default without it.
pub fn requested_time(package: usize, expires: Option<u32>) -> u32 {
    expires.unwrap_or(DEFAULT[package])
}

/// Granted time is the smaller of the requested and the most.
pub fn granted_time(package: usize, requested: u32) -> u32 {
    requested.min(MOST[package])
}

#[cfg(test)]
mod tests {
    use super::*;

    #[test]
    fn names_are_compared_byte_by_byte() {
        assert_eq!(package_named(b"presence"), Some(0));
        assert_eq!(package_named(b"message-summary"), Some(1));
        assert_eq!(package_named(b"dialog"), Some(2));
        for name in ["", "Presence", "presenc", "presence.winfo", "dialogs"] {
            assert_eq!(package_named(name.as_bytes()), None, "{}", name);
        }
    }

    #[test]
    fn times() {
        assert_eq!(requested_time(0, None), 3600);
        assert_eq!(requested_time(1, None), 3600);
        assert_eq!(requested_time(2, None), 600);
        assert_eq!(requested_time(2, Some(0)), 0);
        assert_eq!(granted_time(0, 3601), 3600);
        assert_eq!(granted_time(1, 3601), 3601);
        assert_eq!(granted_time(1, 4294967295), 7200);
        assert_eq!(granted_time(2, 0), 0);
    }
}
