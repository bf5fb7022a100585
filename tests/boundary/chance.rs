//! One of some values by chance, where making the values up may need chance too.

use second::generate::random::Random;

pub fn one_of<T: Copy, const N: usize>(values: [T; N], random: &mut Random) -> T {
    *random.pick(&values)
}
