//! A slice lent to the archive, with guards on both sides.

pub struct Lent<T> {
    area: Vec<T>,
    guard: T,
}

const GUARDS: usize = 8;

impl<T: Copy + PartialEq> Lent<T> {
    pub fn new(lent: &[T], guard: T) -> Lent<T> {
        let guards = [guard; GUARDS];
        Lent {
            area: [&guards, lent, &guards].concat(),
            guard,
        }
    }

    pub fn slice(&mut self) -> &mut [T] {
        let end = self.area.len() - GUARDS;
        &mut self.area[GUARDS..end]
    }

    /// The slice as the call left it.
    pub fn back(mut self) -> Vec<T> {
        let guards = [self.guard; GUARDS];
        let kept = self.area.starts_with(&guards) && self.area.ends_with(&guards);
        assert!(kept, "something outside the slice");
        self.area.truncate(self.area.len() - GUARDS);
        self.area.drain(..GUARDS);
        self.area
    }
}
