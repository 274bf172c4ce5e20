//! Makes a run that shows a difference short, by leaving out steps.

/// Leaves out steps as long as a difference is found: first half of them at a time, then fewer, at
/// last one by one, until each that is left is needed. `told` says the difference, if there is one.
/// Gives `None` if these steps show none.
pub fn shrunk<T: Clone>(
    mut steps: Vec<T>,
    mut told: impl FnMut(&[T]) -> Option<String>,
) -> Option<(Vec<T>, String)> {
    let mut difference = told(&steps)?;
    let mut part = steps.len();
    loop {
        let (mut place, before) = (0, steps.len());
        while place < steps.len() {
            let end = usize::min(place + part, steps.len());
            let fewer = [&steps[..place], &steps[end..]].concat();
            match told(&fewer) {
                Some(again) => (steps, difference) = (fewer, again),
                None => place = end,
            }
        }
        match part {
            0 | 1 if steps.len() == before => return Some((steps, difference)),
            _ => part = usize::max(part / 2, 1),
        }
    }
}

#[cfg(test)]
mod tests {
    use super::*;

    #[test]
    fn only_what_is_needed_is_left() {
        // A difference that needs a 3, later a 5 and later again another 3.
        let told = |steps: &[u32]| {
            let mut needed = [3, 5, 3].iter().peekable();
            for step in steps {
                needed.next_if_eq(&step);
            }
            needed.peek().is_none().then(|| format!("{}", steps.len()))
        };
        let steps: Vec<u32> = (0..100).map(|i| i % 10).collect();
        assert_eq!(shrunk(steps, told), Some((vec![3, 5, 3], "3".to_string())));
        assert_eq!(shrunk(vec![5, 3, 5], told), None);
    }

    #[test]
    fn a_difference_without_any_step() {
        let told = |_: &[u32]| Some("always".to_string());
        assert_eq!(shrunk(vec![1, 2, 3], told), Some((vec![], "always".into())));
        assert_eq!(shrunk(vec![], told), Some((vec![], "always".into())));
    }
}
