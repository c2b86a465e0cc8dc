// The unverified program on a day of seven transactions, so that the proved one is measured beside the right rules.
use super::{Catalogue, Refusal};
use crate::plain::store::Store;

fn stamp(catalogue: &Catalogue, card: u32, version: u32) -> Vec<u16> {
    catalogue.store.stamp(card, version).expect("a version").to_vec()
}

// Reads the cards, each at its version, drafts some, and commits.
fn edit(catalogue: &mut Catalogue, slip: u32, reads: &[(u32, u32)], drafts: &[u32]) -> Result<(), Refusal> {
    for (card, version) in reads {
        assert_eq!(catalogue.read(slip, *card).expect("a reading").version, *version);
    }
    for card in drafts {
        catalogue.draft(slip, *card, (7, 8))?;
    }
    catalogue.commit(slip)
}

#[test]
fn seven_transactions() {
    let mut catalogue = Catalogue::new(Store::pool(3, 3, 100), 3, 100);
    let slips: Vec<u32> = (0..7).map(|_| catalogue.open().expect("a slip")).collect();
    assert_eq!(catalogue.read(slips[2], 0).expect("a reading").version, 0);
    assert_eq!(edit(&mut catalogue, slips[0], &[(0, 0)], &[0]), Ok(()));
    assert_eq!(stamp(&catalogue, 0, 1), [1, 0, 0]);
    assert_eq!(edit(&mut catalogue, slips[1], &[(0, 1), (1, 0)], &[1]), Ok(()));
    assert_eq!(stamp(&catalogue, 1, 1), [1, 1, 0]);
    assert_eq!(edit(&mut catalogue, slips[2], &[(1, 0)], &[0]), Err(Refusal::Conflict));
    assert_eq!(edit(&mut catalogue, slips[3], &[(1, 1), (0, 1)], &[]), Ok(()));
    assert_eq!(edit(&mut catalogue, slips[4], &[(0, 1), (1, 1)], &[0, 1]), Ok(()));
    assert_eq!([stamp(&catalogue, 0, 2), stamp(&catalogue, 1, 2)], [[2, 2, 0], [2, 2, 0]]);
    for slip in &slips[5..] {
        assert_eq!(catalogue.read(*slip, 0).expect("a reading").version, 2);
        assert_eq!(catalogue.read(*slip, 1).expect("a reading").version, 2);
    }
    assert_eq!(edit(&mut catalogue, slips[5], &[], &[0]), Ok(()));
    assert_eq!(edit(&mut catalogue, slips[6], &[], &[1]), Ok(()));
    assert_eq!([stamp(&catalogue, 0, 3), stamp(&catalogue, 1, 3)], [[3, 2, 0], [2, 3, 0]]);
}
