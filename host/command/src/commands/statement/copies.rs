//! The copies of a film: why its tenants share each, and where they part.

use std::borrow::Cow;
use std::io::{Read, Seek};

use serde::Serialize;
use usm::{Reader, Share, Tenant};

use crate::output::csv::field;
use crate::output::digits::{has, marks, places};
use crate::output::numbers::{grouped, tenants};
use crate::output::{Error, Output, print_to};
use crate::sharing::apart::{self, Apart};
use crate::sharing::why::{self, Why};

/// The copies of a film, by their lowest tenants.
pub struct Copies {
    /// The bits of a key that the film shows.
    bits: u64,
    copies: Vec<Copy>,
}

struct Copy {
    /// By rising number.
    tenants: Vec<u64>,
    /// The keys of these.
    keys: Vec<Option<u64>>,
    bytes: u64,
    /// Where it parts from the first copy.
    apart: Option<Apart>,
}

impl Copies {
    /// Of a film that shows these bits of a key, and whose statement has these shares. Which tenants have one copy is what
    /// the shares say.
    pub fn of<R: Read + Seek>(
        reader: &mut Reader<R>,
        bits: u64,
        tenants: &[Tenant],
        shares: &[Share],
    ) -> Result<Copies, Error> {
        let mut copies: Vec<Copy> = Vec::new();
        for share in shares {
            let key = tenants.iter().find(|tenant| tenant.number == share.tenant).map(|tenant| tenant.key);
            match copies.iter_mut().find(|copy| copy.group() == share.group) {
                Some(copy) => copy.add(share, key),
                None => {
                    copies.push(Copy { tenants: vec![share.tenant], keys: vec![key], bytes: share.bytes, apart: None })
                }
            }
        }
        if let Some((first, others)) = copies.split_first_mut()
            && let Some(one) = first.keys[0]
        {
            let keys: Vec<u64> = others.iter().filter_map(|copy| copy.keys[0]).collect();
            for (copy, apart) in others.iter_mut().zip(apart::of(reader, one, &keys)?) {
                copy.apart = apart;
            }
        }
        Ok(Copies { bits, copies })
    }

    /// The bits that count for this film in which a copy's keys differ from those of the first.
    fn apart_bits(&self, copy: &Copy) -> u64 {
        why::differing([self.copies[0].keys[0], copy.keys[0]].into_iter()) & self.bits
    }

    pub fn print(&self, output: &mut Output) -> Result<(), Error> {
        let counts = marks(|place| if has(self.bits, place) { '+' } else { '-' });
        print_to!(output, "\n{counts}  + counts for this film, - does not\n");
        for (at, copy) in self.copies.iter().enumerate() {
            let (number, all) = (at + 1, self.copies.len());
            print_to!(
                output,
                "copy {number} of {all}: {} bytes, {}\n",
                grouped(copy.bytes),
                tenants(copy.tenants.iter().copied().collect())
            );
            copy.print_why(self.bits, output)?;
            if let Some(apart) = copy.apart {
                let bits = self.apart_bits(copy);
                print_to!(output, "  It is not copy 1: the keys differ in {}.\n", why::in_digits(bits));
                print_to!(output, "  {}  ^ differs and counts\n  {}.\n", marked(bits), apart.sentence());
            }
        }
        Ok(())
    }

    pub fn object(&self) -> Object {
        let lowest = self.copies[0].group();
        let apart = |copy: &Copy| {
            copy.apart.map(|apart| ApartObject {
                from_group: lowest.to_string(),
                differing_digits: places(self.apart_bits(copy)),
                stream: apart.stream(),
                byte: apart.byte,
                chunk: apart.chunk,
            })
        };
        let copy = |copy: &Copy| CopyObject {
            group: copy.group().to_string(),
            tenants: copy.tenants.iter().map(u64::to_string).collect(),
            bytes: copy.bytes,
            why: copy.word(self.bits),
            apart: apart(copy),
        };
        Object { key_bits: format!("{:016X}", self.bits), copies: self.copies.iter().map(copy).collect() }
    }

    /// What the columns hold for a tenant of a group.
    pub fn fields(&self, group: u64) -> Vec<Cow<'static, [u8]>> {
        let Some(copy) = self.copies.iter().find(|copy| copy.group() == group) else { return Vec::new() };
        let mut fields = vec![field(copy.word(self.bits))];
        match copy.apart {
            Some(apart) => {
                fields.extend([field(self.copies[0].group()), field(apart.stream())]);
                fields.extend([apart.byte, apart.chunk].map(field));
            }
            None => fields.extend(std::iter::repeat_n(field(""), COLUMNS.len() - 1)),
        }
        fields
    }
}

/// The columns that `--why` adds to a CSV.
pub const COLUMNS: [&str; 5] = ["why", "apart_from", "apart_in", "apart_byte", "apart_chunk"];

impl Copy {
    fn add(&mut self, share: &Share, key: Option<u64>) {
        self.tenants.push(share.tenant);
        self.keys.push(key);
        self.bytes += share.bytes;
    }

    /// Its lowest tenant.
    fn group(&self) -> u64 {
        self.tenants[0]
    }

    fn is_alone(&self) -> bool {
        self.tenants.len() == 1
    }

    /// For programs.
    fn word(&self, bits: u64) -> &'static str {
        if self.is_alone() { "alone" } else { Why::of(bits, &self.keys).word() }
    }

    fn print_why(&self, bits: u64, output: &mut Output) -> Result<(), Error> {
        let sentence = if self.is_alone() { why::ALONE } else { Why::of(bits, &self.keys).sentence() };
        print_to!(output, "  {sentence}\n");
        let differ = why::differing(self.keys.iter().copied());
        if differ != 0 {
            print_to!(output, "  {}  ^ differs, and does not count\n", marked(differ));
        }
        Ok(())
    }
}

/// A mark for each digit with a bit of these.
fn marked(bits: u64) -> String {
    marks(|place| if has(bits, place) { '^' } else { '.' })
}

/// What `--why` adds to the object of a film.
#[derive(Serialize)]
pub struct Object {
    key_bits: String,
    copies: Vec<CopyObject>,
}

#[derive(Serialize)]
struct CopyObject {
    group: String,
    tenants: Vec<String>,
    bytes: u64,
    why: &'static str,
    #[serde(skip_serializing_if = "Option::is_none")]
    apart: Option<ApartObject>,
}

/// Where a copy parts from the first.
#[derive(Serialize)]
struct ApartObject {
    from_group: String,
    /// Digits by their places from the left, from 0.
    differing_digits: Vec<usize>,
    stream: &'static str,
    byte: u64,
    chunk: u64,
}
