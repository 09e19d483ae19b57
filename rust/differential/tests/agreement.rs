//! The library and the peer agree, and every code and refusal was met on the way.

/// How many single records are made, if `DIFFERENTIAL_COUNT` is set.
fn count() -> usize {
    match std::env::var("DIFFERENTIAL_COUNT") {
        Ok(count) => count.parse().expect("DIFFERENTIAL_COUNT is a number"),
        Err(_) => differential::DEFAULT_COUNT,
    }
}

#[test]
fn library_and_peer_agree() {
    differential::run(count()).assert_complete();
}
