//! Draws runs at random, and tells the first difference by a short script.

use crate::random::Random;
use crate::shrink::shrunk;
use std::fmt::Debug;
use std::time::{SystemTime, UNIX_EPOCH};

/// A run that shows a difference, made short.
#[derive(Debug)]
pub struct Difference {
    /// What the run starts at.
    pub start: String,
    /// How many steps are left of it.
    pub steps: usize,
    /// What differs, and the script that leads to it.
    pub told: String,
}

/// How many runs are drawn, and from which number on.
#[derive(Clone, Copy, Debug)]
pub struct Draws {
    pub runs: usize,
    pub seed: u64,
}

impl Draws {
    /// So many runs; more of them and other ones if the environment says so.
    pub fn asked_for(runs: usize) -> Draws {
        let times = match std::env::var("AT_RANDOM").as_deref() {
            Ok("long") => 30,
            _ => 1,
        };
        let seed = match std::env::var("AT_RANDOM_SEED").as_deref() {
            Err(_) => 0,
            Ok("fresh") => {
                let now = SystemTime::now().duration_since(UNIX_EPOCH);
                now.map_or(1, |time| time.as_micros() as u64)
            }
            Ok(word) => word.parse().expect("AT_RANDOM_SEED is a number or fresh"),
        };
        Draws {
            runs: runs * times,
            seed,
        }
    }

    /// Draws runs, each a start and its steps, and tests each. The first that shows a difference
    /// is made short.
    pub fn first_difference<S: Debug, T: Clone>(
        self,
        mut draw: impl FnMut(&mut Random) -> (S, Vec<T>),
        mut test: impl FnMut(&S, &[T]) -> Result<(), String>,
    ) -> Option<Difference> {
        let mut random = Random::seeded(self.seed);
        (0..self.runs).find_map(|_| {
            let (start, steps) = draw(&mut random);
            let (steps, told) = shrunk(steps, |steps| test(&start, steps).err())?;
            Some(Difference {
                start: format!("{start:?}"),
                steps: steps.len(),
                told,
            })
        })
    }
}
