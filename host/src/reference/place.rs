// The places of the grammar: what may stand there besides Mods and most of Bare.

#[derive(Clone, Copy, PartialEq, Eq)]
pub struct Place(u8);

const NAMED: u8 = 1;
const VOID: u8 = 2;
const TYPED: u8 = 4;
const BYREF: u8 = 8;
const PINNED: u8 = 16;
const FIRST: u8 = 32;
const ONCE: u8 = 64;

impl Place {
    /// Mods, then Bare.
    pub const TYPE: Place = Place(NAMED);
    /// Behind PTR: Mods, then VOID or Bare.
    pub const TARGET: Place = Place(NAMED | VOID);
    pub const PARAM: Place = Place(NAMED | TYPED | BYREF);
    pub const RETURN: Place = Place(NAMED | TYPED | BYREF | VOID);
    pub const LOCAL: Place = Place(NAMED | TYPED | BYREF | PINNED);
    /// Behind PINNED: Type, or 10 Type.
    pub const PINNED: Place = Place(NAMED | BYREF | ONCE);
    /// The first byte of a TypeSpec, where 11 and 12 are refused.
    pub const SPEC: Place = Place(VOID | TYPED | FIRST);

    /// The place behind a modifier that stands in this place.
    #[inline]
    pub fn behind_modifier(self) -> Place {
        match self.0 & (FIRST | ONCE) {
            FIRST => Place(NAMED | VOID | TYPED),
            ONCE => Place::TYPE,
            _ => self,
        }
    }

    /// 11 or 12 with a token.
    #[inline]
    pub fn named(self) -> bool {
        self.0 & NAMED != 0
    }

    /// 01.
    #[inline]
    pub fn void(self) -> bool {
        self.0 & VOID != 0
    }

    /// 16.
    #[inline]
    pub fn typed(self) -> bool {
        self.0 & TYPED != 0
    }

    /// 10 and a Type.
    #[inline]
    pub fn byref(self) -> bool {
        self.0 & BYREF != 0
    }

    /// 45 and what may be pinned.
    #[inline]
    pub fn pinned(self) -> bool {
        self.0 & PINNED != 0
    }
}
