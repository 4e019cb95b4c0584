//! The texts of the dump compared with the reference's (`dumps`): over sound images of
//! any contents and their twins, damaged, truncated and lengthened ones, random bytes of
//! every length up to 600, sizes in and out of range, the largest image, and boards of
//! histories before, inside and after their calls. Seeds are fixed; the first difference
//! is told. Every kind of answer must have been among them.

use crate::arbitrary;
use crate::benches::{Bench, Ran, Rubbish};
use crate::calls::*;
use crate::dumps::{Dumps, Texts};
use crate::groups::{due, lines_due, plain};
use crate::prng::Rng;
use crate::reference::Reference;
use crate::report::{Found, Outcome};

/// What the answers must have among them, each by a part of its text.
const KINDS: [(&str, &str); 15] = [
    ("sound", "refusal=0\n"),
    ("refused with 1", "refusal=1\n"),
    ("refused with 2", "refusal=2\n"),
    ("refused with 3", "refusal=3\n"),
    ("refused with 4", "refusal=4\n"),
    ("without an epoch", " epoch=- "),
    ("without a line of states", " states-at=- refusal=1\n"),
    ("with an empty level that holds bytes", " saved=empty working=200 differ=0"),
    ("with a silent level", " silent\n"),
    ("with a level in state 1 that has a spare", " state=1 spare=0 "),
    ("alike", "same=1\n"),
    ("unlike by bytes", " frame=0 at=0\n"),
    ("unlike by emptiness only", " frame=- at=-\n"),
    ("A refused", " image=A\n"),
    ("B refused", " image=B\n"),
];

/// Every length up to this one is tried.
const ALL_LENGTHS: usize = 600;

/// Some texts beside those of the reference, and how often each kind was asked for.
struct Compared<'a, T: Texts> {
    texts: &'a T,
    rng: Rng,
    kinds: [u64; KINDS.len()],
    images: u64,
    pairs: u64,
}

/// Compares texts with the reference's, so many rounds of each kind of image.
pub fn compared<T: Texts>(texts: &T, seed: u64, rounds: usize) -> Outcome {
    let kinds = [0; KINDS.len()];
    let mut both = Compared { texts, rng: Rng::new(seed), kinds, images: 0, pairs: 0 };
    both.every_length()?;
    for round in 0..rounds {
        both.any_image(if round % 100 == 99 { arbitrary::edge_sizes } else { small })?;
        both.random_bytes()?;
        if round % 10 == 9 {
            both.history()?;
        }
    }
    both.largest()?;
    if let Some(kind) = both.kinds.iter().position(|count| *count == 0) {
        return Err(format!("no image was {}", KINDS[kind].0));
    }
    let told: Vec<String> =
        KINDS.iter().zip(both.kinds).map(|((name, _), count)| format!("{count} {name}")).collect();
    let text = format!("{} images, {} pairs: {}", both.images, both.pairs, told.join(", "));
    Ok(Found::new(text, &[("images", both.images), ("pairs of images", both.pairs)]))
}

fn small(rng: &mut Rng) -> Sizes {
    arbitrary::sizes(rng, 4)
}

impl<T: Texts> Compared<'_, T> {
    fn told(&mut self, text: &str) {
        for (count, (_, part)) in self.kinds.iter_mut().zip(KINDS) {
            *count += u64::from(text.contains(part));
        }
    }

    /// An image by its own sizes and by these.
    fn image(&mut self, image: &[u8], sizes: Sizes) -> Result<(), String> {
        let good = Dumps::good();
        let own = good.own_sizes(image);
        due(&format!("own sizes of {} bytes", image.len()), self.texts.own_sizes(image), own)?;
        for sizes in [own, sizes] {
            let (refusal, text) = good.dump_text(image, sizes);
            let (given, printed) = self.texts.dump_text(image, sizes);
            let what = format!("{} bytes by {sizes}", image.len());
            lines_due(&what, printed.as_bytes(), &text)?;
            due(&what, given, refusal)?;
            self.told(&text);
            self.images += 1;
        }
        Ok(())
    }

    /// Two images, in both orders.
    fn pair(&mut self, a: &[u8], b: &[u8], sizes: Sizes) -> Result<(), String> {
        for (a, b) in [(a, b), (b, a)] {
            let (refusal, text) = Dumps::good().same_text(a, b, sizes);
            let (given, printed) = self.texts.same_text(a, b, sizes);
            let what = format!("{} and {} bytes by {sizes}", a.len(), b.len());
            lines_due(&what, printed.as_bytes(), &text)?;
            due(&what, given, refusal)?;
            self.told(&text);
            self.pairs += 1;
        }
        Ok(())
    }

    /// A sound image, its twins, each once more with a bit of its levels and spares
    /// changed, and damaged ones; sizes as they are and odd ones.
    fn any_image(&mut self, sizes: fn(&mut Rng) -> Sizes) -> Result<(), String> {
        let rng = &mut self.rng;
        let sizes = sizes(rng);
        let image = arbitrary::sound_image(rng, sizes);
        let mut others = vec![arbitrary::alike(rng, &image, sizes), arbitrary::sound_image(rng, sizes)];
        others.extend(arbitrary::silent_twin(rng, &image, sizes));
        for mut changed in others.clone() {
            let at = rng.range(DATA, changed.len() - 1);
            changed[at] ^= 1 << rng.below(8);
            others.push(changed);
        }
        for mut damaged in [image.clone(), others[0].clone()] {
            (0..rng.range(1, 2)).for_each(|_| arbitrary::damage(rng, &mut damaged, sizes));
            others.push(damaged);
        }
        let odd = arbitrary::odd_sizes(rng, sizes);
        self.image(&image, odd)?;
        self.pair(&image, &others[0], odd)?;
        self.pair(&others[others.len() - 2], &others[others.len() - 1], sizes)?;
        for other in [&image].into_iter().chain(&others) {
            self.image(other, sizes)?;
            self.pair(&image, other, sizes)?;
        }
        Ok(())
    }

    /// Random bytes, by sizes up to the largest numbers.
    fn random_bytes(&mut self) -> Result<(), String> {
        let length = self.rng.below(2000);
        let [image, other] = [0, 1].map(|_| self.rng.bytes(length));
        let [levels, spares, frames] = [0, 1, 2].map(|_| {
            let any = self.rng.word();
            self.rng.pick(&[0, 1, 2, 64, 65, 1 << 32, any, u64::MAX])
        });
        let sizes = Sizes::new(levels, spares, frames);
        self.image(&image, sizes)?;
        self.pair(&image, &other, sizes)
    }

    /// Every length up to 600: of random bytes and of the start of a sound image, at an
    /// even epoch and at an odd one.
    fn every_length(&mut self) -> Result<(), String> {
        let sizes = Sizes::new(1, 1, 1);
        let sound = arbitrary::sound_image(&mut self.rng, sizes);
        for length in 0..=ALL_LENGTHS {
            for mut image in [self.rng.bytes(length), sound[..length].to_vec()] {
                for _ in 0..2 {
                    image.iter_mut().take(1).for_each(|epoch| *epoch ^= 1);
                    self.image(&image, sizes)?;
                    self.pair(&sound, &image, sizes)?;
                }
            }
        }
        Ok(())
    }

    /// The boards of a history, as each call finds it, leaves it and is cut in it.
    fn history(&mut self) -> Result<(), String> {
        let (calls, sizes) = (Reference::good(), arbitrary::sizes(&mut self.rng, 3));
        let rubbish = Rubbish::Random(Rng::new(self.rng.word()));
        let mut bench = Bench::laid_out(&calls, sizes, rubbish);
        let mut next = plain(Deed::Open(sizes, ADR), sizes);
        for _ in 0..12 {
            let Ran { before, orders, dump, .. } = bench.run(&next, 0);
            let mut cut = before.clone();
            let played = self.rng.below(orders.len() / 3 + 1);
            calls.play(&mut cut, &orders, played as u64);
            self.image(&dump, sizes)?;
            self.image(&cut, sizes)?;
            self.pair(&before, &dump, sizes)?;
            self.pair(&cut, &dump, sizes)?;
            next = arbitrary::call(&mut self.rng, sizes, ADR, &[Console::alone(sizes)]);
        }
        Ok(())
    }

    /// The largest image, one that is alike, and one with a changed bit.
    fn largest(&mut self) -> Result<(), String> {
        let sizes = Sizes::new(MOST, MOST, MOST);
        let image = arbitrary::sound_image(&mut self.rng, sizes);
        let mut twin = arbitrary::alike(&mut self.rng, &image, sizes);
        for _ in 0..2 {
            self.image(&twin, sizes)?;
            self.pair(&image, &twin, sizes)?;
            let at = self.rng.range(DATA, twin.len() - 1);
            twin[at] ^= 1;
        }
        Ok(())
    }
}
