//! What tenants owe for the copies of a film.

use crate::{Reading, Refusal, ffi};

/// A tenant and the key under which it has a film.
#[derive(Clone, Copy, PartialEq, Eq, Hash, Debug)]
pub struct Tenant {
    pub number: u64,
    pub key: u64,
}

/// What a tenant owes: a part of the bytes of the copy that its group has together.
#[derive(Clone, Copy, PartialEq, Eq, Hash, Debug)]
#[non_exhaustive]
pub struct Share {
    pub tenant: u64,
    /// The lowest tenant of its group. Tenants are in one group exactly where their streams are the same.
    pub group: u64,
    pub bytes: u64,
}

/// The bits of keys that a film shows: its streams under two keys are equal exactly where the keys agree in these bits
/// (proved). It costs a walk over the film's chunks, and nothing is unpacked.
///
/// ```
/// let film = std::fs::read("tests/song.usm")?;
/// let bits = usm::key_bits(&film, usm::Reading::default())?;
/// assert_eq!(0x0123456789ABCDEF & bits, 0xFF23456789ABCDEF & bits, "the same streams");
/// assert_ne!(0x0123456789ABCDEF & bits, 0, "other streams than under the key 0");
/// # Ok::<(), Box<dyn std::error::Error>>(())
/// ```
pub fn key_bits(film: &[u8], reading: Reading) -> Result<u64, Refusal> {
    let reply = ffi::key_bits(film, reading.for_c());
    Refusal::check(reply.number, reply.refused_at, reply.unknown_type)?;
    Ok(reply.bits)
}

/// The shares of up to 16 tenants in a film's copies, by rising tenant, whatever the order of the tenants. Shares of a
/// group sum to the size of both streams and differ by one byte at most (proved).
///
/// ```
/// use usm::Tenant;
///
/// let film = std::fs::read("tests/song.usm")?;
/// let tenants = [(7, 0x0123456789ABCDEF), (3, 0xFF23456789ABCDEF), (9, 0)];
/// let shares = usm::statement(&film, &tenants.map(|(number, key)| Tenant { number, key }))?;
/// let lines: Vec<_> = shares.iter().map(|share| (share.tenant, share.group, share.bytes)).collect();
/// assert_eq!(lines, [(3, 3, 1095), (7, 3, 1094), (9, 9, 2189)]);
/// # Ok::<(), Box<dyn std::error::Error>>(())
/// ```
pub fn statement(film: &[u8], tenants: &[Tenant]) -> Result<Vec<Share>, Refusal> {
    shares(tenants, |tenants, lines| ffi::statement(film, tenants, lines))
}

/// The same of a film that is known by the bits of a key that it shows and by the bytes of a copy, both streams together:
/// one that was read piece by piece, with all audio taken. The shares are those that [`statement()`] gives it (proved).
///
/// ```
/// use usm::{Reader, Reading, Tenant};
///
/// let film = std::fs::read("tests/song.usm")?;
/// let tenants = [(7, 0x0123456789ABCDEF), (3, 0xFF23456789ABCDEF), (9, 0)];
/// let tenants = tenants.map(|(number, key)| Tenant { number, key });
/// let (mut bits, mut size) = (0, 0);
/// for chunk in Reader::new(std::io::Cursor::new(&film), Reading::default())?.chunks() {
///     let chunk = chunk?;
///     bits = bits.max(chunk.mask.key_bits(chunk.length));
///     size += chunk.length;
/// }
/// assert_eq!(usm::statement_by(bits, size, &tenants)?, usm::statement(&film, &tenants)?);
/// # Ok::<(), Box<dyn std::error::Error>>(())
/// ```
pub fn statement_by(bits: u64, size: usize, tenants: &[Tenant]) -> Result<Vec<Share>, Refusal> {
    shares(tenants, |tenants, lines| ffi::statement_by(bits, size, tenants, lines))
}

fn shares(
    tenants: &[Tenant],
    call: impl FnOnce(&[ffi::Tenant], &mut Vec<ffi::Share>) -> ffi::ListReply,
) -> Result<Vec<Share>, Refusal> {
    let tenants: Vec<ffi::Tenant> =
        tenants.iter().map(|tenant| ffi::Tenant { number: tenant.number, key: tenant.key }).collect();
    let mut lines = Vec::with_capacity(tenants.len());
    let reply = call(&tenants, &mut lines);
    Refusal::check(reply.number, reply.refused_at, reply.unknown_type)?;
    Ok(lines.iter().map(|line| Share { tenant: line.tenant, group: line.group, bytes: line.share }).collect())
}
