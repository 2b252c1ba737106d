//! What a budget or a thread does in a ms.

/// What a budget or a thread does in a ms. Of several that share a row the greatest counts.
#[derive(Clone, Copy, Debug, Default, PartialEq, Eq, PartialOrd, Ord, Hash)]
pub enum Doing {
    /// It is not live.
    #[default]
    Off,
    /// None of its threads is Ready or current.
    Sleeps,
    /// It has a Ready thread and CPU time left, and another runs.
    Waits,
    /// It has a Ready thread and no CPU time left.
    HeldBack,
    /// Its thread is current.
    Runs,
}

impl Doing {
    const ALL: [Self; 5] = [
        Self::Off,
        Self::Sleeps,
        Self::Waits,
        Self::HeldBack,
        Self::Runs,
    ];

    /// Has it something to do: does it run, wait, or is it held back?
    pub const fn has_work(self) -> bool {
        matches!(self, Self::Waits | Self::HeldBack | Self::Runs)
    }
}

/// What somebody does in each of the ten ms of a period, 3 bits each; Off where nothing was noted.
#[derive(Clone, Copy, Debug, Default)]
pub struct Doings(u32);

impl Doings {
    /// In the ms at this place of the period.
    pub fn get(self, place: usize) -> Doing {
        let code = self.0 >> (3 * place) & 7;
        Doing::ALL.get(code as usize).copied().unwrap_or_default()
    }

    /// Notes it for the ms at this place.
    pub fn set(&mut self, place: usize, doing: Doing) {
        self.0 &= !(7 << (3 * place));
        self.0 |= (doing as u32) << (3 * place);
    }
}

#[cfg(test)]
mod tests {
    use super::*;

    #[test]
    fn ten_places_keep_apart() {
        let mut doings = Doings::default();
        for place in 0..10 {
            doings.set(place, Doing::Runs);
        }
        for (place, doing) in (0..10).zip(Doing::ALL.into_iter().cycle()) {
            doings.set(place, doing);
        }
        for (place, doing) in (0..10).zip(Doing::ALL.into_iter().cycle()) {
            assert_eq!(doings.get(place), doing, "place {place}");
        }
    }
}
