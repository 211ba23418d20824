//! Eviction policies.

pub trait Policy {
    fn start(&mut self, count: usize);
    /// Tells of a slot that was used.
    fn tell(&mut self, slot: usize);
    /// The first permitted slot of the order: bit i of the mask permits slot i.
    fn name(&mut self, permitted: u8) -> usize;
}

/// A hand that goes round the slots.
#[derive(Default)]
pub struct Hand {
    hand: usize,
    count: usize,
}

impl Policy for Hand {
    fn start(&mut self, count: usize) {
        *self = Hand { hand: 0, count };
    }

    #[inline]
    fn tell(&mut self, _slot: usize) {}

    fn name(&mut self, permitted: u8) -> usize {
        let round = (self.hand..self.count).chain(0..self.hand);
        let slot = round
            .into_iter()
            .find(|slot| permitted >> slot & 1 == 1)
            .unwrap_or(0);
        self.hand = slot + 1;
        slot
    }
}

/// The slot that was told of longest ago goes first.
#[derive(Default)]
pub struct Old {
    order: [u8; 8],
    count: usize,
}

impl Policy for Old {
    fn start(&mut self, count: usize) {
        *self = Old {
            order: [0, 1, 2, 3, 4, 5, 6, 7],
            count,
        };
    }

    #[inline]
    fn tell(&mut self, slot: usize) {
        let order = &mut self.order[..self.count];
        if let Some(place) = order.iter().position(|&each| usize::from(each) == slot) {
            order[place..].rotate_left(1);
        }
    }

    fn name(&mut self, permitted: u8) -> usize {
        let order = &self.order[..self.count];
        order
            .iter()
            .find(|&slot| permitted >> slot & 1 == 1)
            .map_or(0, |&slot| slot.into())
    }
}
