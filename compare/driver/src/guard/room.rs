//! A room to lend, with guards on both sides.

/// Guards on each side, in elements.
const GUARDS: usize = 8;

/// What rooms are made of, and what guards them.
pub trait Element: Copy + Eq {
    const GUARD: Self;
}

impl Element for u64 {
    const GUARD: Self = 0xfeed_face_cafe_beef;
}

impl Element for u8 {
    const GUARD: Self = 0xc3;
}

/// `content` is what the room holds as it is lent; `laid` has it between guards.
#[derive(Default)]
pub struct Room<T> {
    pub content: Vec<T>,
    laid: Vec<T>,
}

impl<T: Element> Room<T> {
    pub fn fill(&mut self, content: &[T]) {
        self.content.clear();
        self.content.extend_from_slice(content);
    }

    /// Lays the content out anew between its guards.
    pub fn lay(&mut self) {
        self.laid.clear();
        self.laid.resize(GUARDS, T::GUARD);
        self.laid.extend_from_slice(&self.content);
        self.laid.resize(2 * GUARDS + self.content.len(), T::GUARD);
    }

    pub fn lent(&self) -> &[T] {
        &self.laid[GUARDS..GUARDS + self.content.len()]
    }

    pub fn lent_mut(&mut self) -> &mut [T] {
        let end = GUARDS + self.content.len();
        &mut self.laid[GUARDS..end]
    }

    pub fn is_unchanged(&self) -> bool {
        self.lent() == self.content
    }

    /// Whether all but the elements `from` to `end` - 1 are as they were.
    pub fn is_unchanged_outside(&self, from: usize, end: usize) -> bool {
        let (now, before) = (self.lent(), &self.content);
        now[..from] == before[..from] && now[end..] == before[end..]
    }

    pub fn guards_hold(&self) -> bool {
        let end = GUARDS + self.content.len();
        let guards = self.laid[..GUARDS].iter().chain(&self.laid[end..]);
        guards.copied().all(|guard| guard == T::GUARD)
    }
}
