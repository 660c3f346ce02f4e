//! Why a call refuses what it is given: those faults of docs/FAULTS.md that come up here.

use std::fmt;

/// A fault. Its text is a number, a name and a sentence, as `E7 OtherSet: the position's piece set isn't the file's`.
#[derive(Clone, PartialEq, Eq, Debug)]
#[allow(missing_docs)] // the sentences below say what each is
pub enum Fault {
    Shape,
    Letter,
    Hand,
    Lions,
    Count,
    FarLion,
    OtherSet,
    Truncated,
    /// With what the file was to be.
    Magic(&'static str),
    SetByte,
    ClassCount,
    Trailing,
    Digest,
    /// With the class.
    Inconsistent(u32),
    Memory,
    /// With what failed, and why.
    Io(String),
    SetText,
    FarChick,
    ProfileByte,
    /// With the class of the entry, and its first position.
    Unsupported(u32, String),
    /// With what is claimed.
    Claim(String),
    Version,
    RootClass,
    ClaimByte,
    EntryCount,
    EntryNumber,
    EntryOrder,
    EntryClass,
    EntryPlies,
}

impl Fault {
    /// The number, which stays for good.
    pub fn number(&self) -> u8 {
        self.told().0
    }

    /// The name.
    pub fn name(&self) -> &'static str {
        self.told().1
    }

    fn told(&self) -> (u8, &'static str, &'static str) {
        match self {
            Fault::Shape => {
                (1, "Shape", "a position is four rows of three letters between `/`, and two hands behind spaces")
            }
            Fault::Letter => (2, "Letter", "a square is one of `.LGECHlgech`"),
            Fault::Hand => (3, "Hand", "a hand is `-` or letters in the order C, E, G, capital ones for the mover"),
            Fault::Lions => (4, "Lions", "each side has one lion"),
            Fault::Count => (5, "Count", "there are at most two of a kind, hens counted as chicks"),
            Fault::FarLion => (6, "FarLion", "the lion of the side to move doesn't stand on row 4"),
            Fault::OtherSet => (7, "OtherSet", "the position's piece set isn't the file's"),
            Fault::Truncated => (15, "Truncated", "the file ends too early"),
            Fault::Magic(_) => (16, "Magic", "the file doesn't begin as these do"),
            Fault::SetByte => (17, "SetByte", "the bytes behind the title name no piece set"),
            Fault::ClassCount => (18, "ClassCount", "the file counts other classes than its piece set has"),
            Fault::Trailing => (19, "Trailing", "the file goes on after its end"),
            Fault::Digest => (20, "Digest", "the file's digest isn't that of its bytes"),
            Fault::Inconsistent(_) => (21, "Inconsistent", "its value doesn't follow"),
            Fault::Memory => (23, "Memory", "no memory is left"),
            Fault::Io(_) => (24, "Io", ""),
            Fault::SetText => (25, "SetText", "a piece set is three digits, each 0, 1 or 2"),
            Fault::FarChick => (26, "FarChick", "by rules B no chick stands on its own far row"),
            Fault::ProfileByte => (27, "ProfileByte", "the rules are neither A nor B"),
            Fault::Unsupported(..) => (30, "Unsupported", "its entry isn't shown by its moves"),
            Fault::Claim(_) => (31, "Claim", "the entries don't show"),
            Fault::Version => (32, "Version", "the certificate is of another version"),
            Fault::RootClass => (33, "RootClass", "the family has no class of the root's number"),
            Fault::ClaimByte => (34, "ClaimByte", "what is claimed is no claim"),
            Fault::EntryCount => (35, "EntryCount", "a list counts more entries than the family has classes"),
            Fault::EntryNumber => (36, "EntryNumber", "an entry's number isn't in its fewest bytes"),
            Fault::EntryOrder => (37, "EntryOrder", "an entry's class isn't above the one before it"),
            Fault::EntryClass => (38, "EntryClass", "the family has no class of an entry's number"),
            Fault::EntryPlies => (42, "EntryPlies", "an entry of the lost list has 255 plies"),
        }
    }
}

impl fmt::Display for Fault {
    fn fmt(&self, f: &mut fmt::Formatter<'_>) -> fmt::Result {
        let (number, name, sentence) = self.told();
        write!(f, "E{number} {name}")?;
        match self {
            Fault::Magic(kind) => write!(f, ": the file doesn't begin as {kind} do"),
            Fault::Inconsistent(class) => write!(f, " class {class}"),
            Fault::Io(why) => write!(f, ": {why}"),
            Fault::Unsupported(class, position) => write!(f, " class {class}: {sentence}: {position}"),
            Fault::Claim(claim) => write!(f, ": {sentence} `{claim}`"),
            _ => write!(f, ": {sentence}"),
        }
    }
}

impl std::error::Error for Fault {}
