use crate::lent::{self, LAYOUT};

/// Panics where the library has another layout than this crate, before its tables are taken for something else.
///
/// It is asked at each call, as the library answers with a constant.
pub fn must_fit() {
    if let Err(why) = compare(lent::layout()) {
        panic!("{why}");
    }
}

fn compare(library: usize) -> Result<(), String> {
    match library {
        LAYOUT => Ok(()),
        _ => Err(format!("swarmbanner: the crate is written for layout {LAYOUT}, the library has layout {library}")),
    }
}

#[cfg(test)]
mod tests {
    use super::*;

    #[test]
    fn the_layout_of_this_crate_fits() {
        assert_eq!(compare(LAYOUT), Ok(()));
        must_fit();
    }

    #[test]
    fn another_does_not_and_both_are_named() {
        for other in [0, LAYOUT - 1, LAYOUT + 1, usize::MAX] {
            let why = compare(other).expect_err("it is another");
            assert!(why.ends_with(&format!("written for layout {LAYOUT}, the library has layout {other}")), "{why}");
        }
    }
}
