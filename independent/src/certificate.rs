//! Certificates (docs/FORMAT.md): lists of classes that show a claim without any table.

use crate::classes::Family;
use crate::fault::Fault;
use crate::file::{end, first_bytes, rules_of, set_of, take};
use crate::rules::*;
use crate::text;
use crate::threads::first;
use std::path::Path;

/// How a certificate begins, and how long its header is.
pub(crate) const TITLE: &[u8; 8] = b"DOBUCERT";
pub(crate) const HEADER: usize = 28;

/// The most bytes of an entry: five of a number, and its plies.
const ENTRY: u64 = 6;

/// So many plies stand for *ever*.
const EVER: u16 = 65535;

/// Classes, ascending, each with its plies.
type List = Vec<(u32, u16)>;

/// What a certificate's header says. Nothing of it is checked before [`Certificate::verify`].
pub struct Header {
    /// The piece set and the rules.
    pub family: Family,
    root: u32,
    kind: u8,
    plies: u16,
    lost: u32,
    held: u32,
}

/// A certificate that was read: its header and its entries.
pub struct Certificate {
    header: Header,
    lost: List,
    held: List,
}

/// Reads a number of seven bits a byte, the lowest first, in its fewest bytes and five at most.
fn number(bytes: &mut &[u8]) -> Result<u64, Fault> {
    let mut number = 0;
    for place in 0..5 {
        let [byte] = take(bytes)?;
        number |= (byte as u64 & 127) << (7 * place);
        if byte < 128 && (byte > 0 || place == 0) {
            return Ok(number);
        }
        if byte < 128 {
            break;
        }
    }
    Err(Fault::EntryNumber)
}

/// The entries of `lost`, or those of `held`, which alone may be for ever.
fn list(bytes: &mut &[u8], count: u32, classes: u32, is_lost: bool) -> Result<List, Fault> {
    let mut list = vec![];
    let mut next = 0; // the class before, plus 1
    for _ in 0..count {
        let step = number(bytes)?;
        if step == 0 {
            return Err(Fault::EntryOrder);
        }
        next += step;
        if next > classes as u64 {
            return Err(Fault::EntryClass);
        }
        let plies = match take(bytes)? {
            [255] if is_lost => return Err(Fault::EntryPlies),
            [255] => EVER,
            [plies] => plies as u16,
        };
        list.push((next as u32 - 1, plies));
    }
    Ok(list)
}

/// Takes the header off a file's bytes; the fault is the first that holds in the order of docs/FORMAT.md.
pub(crate) fn header(bytes: &mut &[u8]) -> Result<Header, Fault> {
    take::<HEADER>(&mut &bytes[..])?;
    if take(bytes)? != *TITLE {
        return Err(Fault::Magic("certificates"));
    }
    if take(bytes)? != [1] {
        return Err(Fault::Version);
    }
    let set = set_of(take(bytes)?)?;
    let [rules] = take(bytes)?;
    let family = Family::new(set, rules_of(rules)?);
    let root = u32::from_le_bytes(take(bytes)?);
    if root >= family.classes {
        return Err(Fault::RootClass);
    }
    let [kind, plies] = take(bytes)?;
    if kind > 4 || plies == 255 || kind == 0 && plies != 0 {
        return Err(Fault::ClaimByte);
    }
    let [lost, held] = [take(bytes)?, take(bytes)?].map(u32::from_le_bytes);
    if lost.max(held) > family.classes {
        return Err(Fault::EntryCount);
    }
    Ok(Header { family, root, kind, plies: plies as u16, lost, held })
}

/// A certificate of a file's bytes; the fault is the first that holds in the order of docs/FORMAT.md.
pub fn read(file: &[u8]) -> Result<Certificate, Fault> {
    let mut bytes = file;
    let header = header(&mut bytes)?;
    let lost = list(&mut bytes, header.lost, header.family.classes, true)?;
    let held = list(&mut bytes, header.held, header.family.classes, false)?;
    end(file, bytes)?;
    Ok(Certificate { header, lost, held })
}

/// The certificate of a plain file. Of one that is longer than its header tells no more is read than shows that.
pub fn open(path: &Path) -> Result<Certificate, Fault> {
    let most = |mut head: &[u8]| Ok(HEADER as u64 + ENTRY * header(&mut head)?.entries() + 32);
    read(&first_bytes(path, HEADER, most)?)
}

impl Header {
    /// The position of which something is claimed.
    pub fn root(&self) -> Position {
        self.family.representative(self.root)
    }

    /// What is claimed of it, as `loss within 78`.
    pub fn claim(&self) -> String {
        match (self.kind, self.plies) {
            (0, _) => "draw".to_string(),
            (1, n) => format!("win {n}"),
            (2, n) => format!("loss {n}"),
            (3, n) => format!("win within {n}"),
            (_, n) => format!("loss within {n}"),
        }
    }

    /// How many entries both lists have.
    pub fn entries(&self) -> u64 {
        u64::from(self.lost) + u64::from(self.held)
    }
}

impl Certificate {
    /// Checks each entry and then the claim; says what is proved, and where it is so by rules B that too.
    pub fn verify(&self, threads: usize) -> Result<String, Fault> {
        let unsupported = |list: &List, supports: fn(&Self, &Position, u16) -> bool| {
            first(threads, list.len(), |n| {
                let (class, plies) = list[n];
                (!supports(self, &self.header.family.representative(class), plies)).then_some(class)
            })
        };
        let fault = unsupported(&self.lost, Self::supports_lost);
        if let Some(class) = fault.or_else(|| unsupported(&self.held, Self::supports_held)) {
            let position = text::position(&self.header.family.representative(class));
            return Err(Fault::Unsupported(class, position));
        }
        let (root, n) = (self.header.root(), self.header.plies);
        let loss = || self.lost(&root, n);
        let win = || n > 0 && self.answered(&root, n - 1);
        let shown = match self.header.kind {
            0 => self.holds_out(&root, EVER) && self.safe(&root, EVER),
            1 => win() && (n < 2 || self.safe(&root, n - 2)),
            2 => loss() && (n == 0 || self.holds_out(&root, n - 1)),
            3 => win(),
            _ => loss(),
        };
        let (position, claim) = (text::position(&root), self.header.claim());
        if shown {
            let by = if self.header.family.rules == Rules::B { " by rules B" } else { "" };
            Ok(format!("{position} {claim}{by}"))
        } else {
            Err(Fault::Claim(format!("{position} {claim}")))
        }
    }

    fn plies(&self, list: &List, p: &Position) -> Option<u16> {
        let class = self.header.family.class(p);
        list.binary_search_by_key(&class, |entry| entry.0).ok().map(|n| list[n].1)
    }

    /// The position has lost; or it is open, and `open` holds of its moves.
    fn lost_or(&self, p: &Position, open: impl Fn(&[Move]) -> bool) -> bool {
        match p.status(self.header.family.rules) {
            Status::Caught => false,
            Status::Tried | Status::Stuck => true,
            Status::Open(moves) => open(&moves),
        }
    }

    /// The mover can catch the lion; or the position is open, and `open` holds of its moves.
    fn won_or(&self, p: &Position, open: impl Fn(&[Move]) -> bool) -> bool {
        match p.status(self.header.family.rules) {
            Status::Caught => true,
            Status::Tried | Status::Stuck => false,
            Status::Open(moves) => open(&moves),
        }
    }

    /// It is lost within n plies, as far as the list says.
    fn lost(&self, p: &Position, n: u16) -> bool {
        self.lost_or(p, |_| self.plies(&self.lost, p).is_some_and(|plies| plies <= n))
    }

    fn answered(&self, p: &Position, m: u16) -> bool {
        self.won_or(p, |moves| moves.iter().any(|&one| self.lost(&p.play(one), m)))
    }

    fn holds_out(&self, p: &Position, k: u16) -> bool {
        self.won_or(p, |_| k <= 1 || self.plies(&self.held, p).is_some_and(|plies| plies >= k))
    }

    fn safe(&self, p: &Position, k: u16) -> bool {
        self.lost_or(p, |moves| moves.iter().all(|&one| self.holds_out(&p.play(one), k)))
    }

    fn supports_lost(&self, p: &Position, n: u16) -> bool {
        self.lost_or(p, |moves| n >= 2 && moves.iter().all(|&one| self.answered(&p.play(one), n - 2)))
    }

    fn supports_held(&self, p: &Position, n: u16) -> bool {
        let k = if n == EVER { EVER } else { n.saturating_sub(2) };
        self.won_or(p, |moves| n < 2 || moves.iter().any(|&one| self.safe(&p.play(one), k)))
    }
}
