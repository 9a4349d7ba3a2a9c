//! Messages for examples and tests. Their signatures are zeros: a signature is only looked at for its form.

#![forbid(unsafe_code)]

/// An EVENT that no row refuses: a map tile, dated two hours before 1970.
///
/// ```
/// assert!(plavdrosa::read(plavdrosa::sample::EVENT).is_ok());
/// ```
pub const EVENT: &[u8] = br#"["EVENT",{"id":"afb4d2ec38e45c400ca1b20a5691096d08c2f75986c44f89567e1c4bc5091f3a","pubkey":"aaaaaaaaaaaaaaaaaaaaaaaaaaaaaaaaaaaaaaaaaaaaaaaaaaaaaaaaaaaaaaaa","created_at":-7200,"kind":30078,"tags":[["d","floor-3/tile-17"]],"content":"corridor","sig":"00000000000000000000000000000000000000000000000000000000000000000000000000000000000000000000000000000000000000000000000000000000"}]"#;

/// A newer version of the same tile.
///
/// ```
/// assert!(plavdrosa::read(plavdrosa::sample::NEWER).is_ok());
/// ```
pub const NEWER: &[u8] = br#"["EVENT",{"id":"6d54e1f9d8f9c39eadfbc5e59292876e2b47353b225a1f118b2ffc248170f90c","pubkey":"aaaaaaaaaaaaaaaaaaaaaaaaaaaaaaaaaaaaaaaaaaaaaaaaaaaaaaaaaaaaaaaa","created_at":0,"kind":30078,"tags":[["d","floor-3/tile-17"]],"content":"corridor, bed at the wall","sig":"00000000000000000000000000000000000000000000000000000000000000000000000000000000000000000000000000000000000000000000000000000000"}]"#;

/// An event that is not kept.
///
/// ```
/// assert!(plavdrosa::read(plavdrosa::sample::EPHEMERAL).is_ok());
/// ```
pub const EPHEMERAL: &[u8] = br#"["EVENT",{"id":"5a64fcf21131c0280b4d1bffa86883666aac4e7b5f2d8b8487224eab703b826a","pubkey":"aaaaaaaaaaaaaaaaaaaaaaaaaaaaaaaaaaaaaaaaaaaaaaaaaaaaaaaaaaaaaaaa","created_at":0,"kind":20001,"tags":[],"content":"ping","sig":"00000000000000000000000000000000000000000000000000000000000000000000000000000000000000000000000000000000000000000000000000000000"}]"#;
