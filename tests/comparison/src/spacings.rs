//! Spacings to ask for, and files with two who are about a spacing apart.

use crate::dice::Dice;
use crate::sessions;
use crate::wide::wide;

/// A file, and the spacing that is asked for after it.
pub type Spaced = (Vec<u8>, usize);

/// A spacing, one in five of them refused, and one in 13 wider than 16 bits.
pub fn spacing(dice: &mut Dice) -> usize {
    let edge = dice.pick(&[0, 1, 64, 512, 513]);
    let allowed = dice.between(1, 512);
    let any = usize::from(dice.bits() as u16);
    let wide = wide(dice, 16, allowed);
    dice.pick(&[
        edge, edge, any, wide, allowed, allowed, allowed, allowed, allowed, allowed, allowed, allowed,
        allowed,
    ])
}

/// Gaps just under a spacing, equal to it and just over, asked for by it and by the spacings beside it.
pub fn at_a_spacing() -> impl Iterator<Item = Spaced> {
    [1, 2, 64, 511, 512].into_iter().flat_map(|spacing: usize| {
        let gap = 64 * spacing;
        let files = [gap - 1, gap, gap + 1].map(sessions::apart).into_iter();
        files.flat_map(move |file| [spacing - 1, spacing, spacing + 1].map(|spacing| (file.clone(), spacing)))
    })
}
