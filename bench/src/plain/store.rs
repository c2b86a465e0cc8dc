// An unverified store of the same job as a shelf: a `Vec` of versions for each card.
pub struct Written {
    pub first: u64,
    pub second: u64,
    pub writer: u32,
}

#[derive(Default)]
struct Card {
    versions: Vec<Written>,
    // The stamps of its versions one behind the other, `width` counts each.
    stamps: Vec<u16>,
    drawer: usize,
}

pub struct Store {
    width: usize,
    cards: Vec<Card>,
    // The free places of each drawer.
    free: Vec<u32>,
}

#[derive(Debug, PartialEq, Eq, Clone, Copy)]
pub enum PutRefusal {
    NoCard,
    BadStamp,
    NoPlace,
}

impl Store {
    fn with(width: usize, cards: usize, free: Vec<u32>, drawer: impl Fn(usize) -> usize) -> Store {
        let card = |c| Card {
            versions: vec![Written {
                first: 0,
                second: 0,
                writer: 0,
            }],
            stamps: vec![0; width],
            drawer: drawer(c),
        };
        Store {
            width,
            cards: (0..cards).map(card).collect(),
            free,
        }
    }

    // A drawer for each card.
    pub fn row(cards: usize, width: usize, places: u32) -> Store {
        Store::with(width, cards, vec![places; cards], |c| c)
    }

    // One drawer for all cards.
    pub fn pool(cards: usize, width: usize, places: u32) -> Store {
        Store::with(width, cards, vec![places], |_| 0)
    }

    // So many drawers, each for an equal part of the cards.
    pub fn parts(cards: usize, width: usize, drawers: usize, places: u32) -> Store {
        let each = cards / drawers;
        Store::with(width, each * drawers, vec![places; drawers], |c| c / each)
    }

    // Reserves memory for this many more versions of each card and writes to it once, as a shelf's memory is reserved and cleared
    // before it is used: the system gives it then, and not during the work.
    pub fn reserve(&mut self, versions: usize) {
        for card in &mut self.cards {
            let stamps = card.stamps.len();
            card.stamps.resize(stamps + versions * self.width, 1);
            card.stamps.truncate(stamps);
            let blank = || Written {
                first: 1,
                second: 1,
                writer: 1,
            };
            card.versions.resize_with(1 + versions, blank);
            card.versions.truncate(1);
        }
    }

    pub fn cards(&self) -> usize {
        self.cards.len()
    }

    pub fn newest(&self, card: u32) -> Option<u32> {
        Some(self.cards.get(card as usize)?.versions.len() as u32 - 1)
    }

    pub fn free(&self, card: u32) -> Option<u32> {
        Some(self.free[self.cards.get(card as usize)?.drawer])
    }

    pub fn shares(&self, one: u32, other: u32) -> Option<bool> {
        Some(self.cards.get(one as usize)?.drawer == self.cards.get(other as usize)?.drawer)
    }

    pub fn version(&self, card: u32, version: u32) -> Option<&Written> {
        self.cards.get(card as usize)?.versions.get(version as usize)
    }

    pub fn stamp(&self, card: u32, version: u32) -> Option<&[u16]> {
        let at = version as usize * self.width;
        self.cards.get(card as usize)?.stamps.get(at..at + self.width)
    }

    pub fn entry(&self, card: u32, version: u32, of: u32) -> Option<u16> {
        Some(self.stamp(card, version)?.get(of as usize).copied().unwrap_or(0))
    }

    pub fn put(&mut self, card: u32, written: Written, counts: &[u32]) -> Result<(), PutRefusal> {
        let card = self.cards.get_mut(card as usize).ok_or(PutRefusal::NoCard)?;
        if counts.len() > self.width || counts.iter().any(|n| *n > 65_535) {
            return Err(PutRefusal::BadStamp);
        }
        let free = &mut self.free[card.drawer];
        if *free == 0 {
            return Err(PutRefusal::NoPlace);
        }
        *free -= 1;
        card.versions.push(written);
        card.stamps.extend(counts.iter().map(|n| *n as u16));
        card.stamps.resize(card.versions.len() * self.width, 0);
        Ok(())
    }
}
