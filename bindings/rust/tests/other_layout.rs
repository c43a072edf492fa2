//! For a library of another layout: `bindings/test` links one that stands in for it, and runs what is ignored elsewhere.

use std::panic::{catch_unwind, UnwindSafe};

use swarmbanner::{
    check, expression, lent, member, membership, read, replay, Checker, Machine, Record, Replayer, Session,
};

/// What a call panics with.
fn said<T>(call: impl FnOnce() -> T + UnwindSafe) -> Option<String> {
    catch_unwind(call).err()?.downcast_ref::<String>().cloned()
}

#[test]
#[ignore = "needs a library of another layout"]
fn typed_calls_panic() {
    let (here, library) = (lent::LAYOUT, lent::layout());
    assert_ne!(here, library, "the library is to have another layout");
    let why = format!("swarmbanner: the crate is written for layout {here}, the library has layout {library}");
    assert_eq!(said(|| check(&[])), Some(why.clone()));
    assert_eq!(said(Checker::new), Some(why.clone()));
    assert_eq!(said(|| member(&[], 0, &[])), Some(why.clone()));
    assert_eq!(said(|| membership(&[], 0, &[])), Some(why.clone()));
    assert_eq!(said(|| read(&[])), Some(why.clone()));
    assert_eq!(said(|| replay(&[], &[], &mut [], &mut Record::default())), Some(why.clone()));
    assert_eq!(said(Replayer::new), Some(why.clone()));
    assert_eq!(said(|| expression(&[])), Some(why.clone()));
    let session = Session::new(&[Machine { states: 1, start: 0 }], &[1]).expect("it is within its ranges");
    assert_eq!(said(|| session.write()), Some(why.clone()));
    assert_eq!(said(|| session.write_into(&mut [])), Some(why));
}
