//! Measures how fast requests are parsed by this package and by graphql-parser, in turn: the best of six half seconds each, in
//! microseconds. Both drop what they return.
//!
//!     cargo run --release

use std::time::{Duration, Instant};

const SMALL: &str = "query Film($id: ID!) {
  film(id: $id) {
    id
    title
    cast(first: 9) { name, role }
  }
}
";

fn parses(source: &str) -> bool {
    firthnapkin::parse(source).is_ok()
}

fn peer_parses(source: &str) -> bool {
    graphql_parser::parse_query::<&str>(source).is_ok()
}

fn least(found: Duration, source: &str, call: fn(&str) -> bool) -> Duration {
    let mut found = found;
    let end = Instant::now() + Duration::from_millis(500);
    while Instant::now() < end {
        let begin = Instant::now();
        assert!(call(source));
        found = found.min(begin.elapsed());
    }
    found
}

fn main() -> std::io::Result<()> {
    let request = std::fs::read_to_string(concat!(env!("CARGO_MANIFEST_DIR"), "/../../request.graphql"))?;
    let repeated = [1, 3, 17, 170, 1700].map(|count| request.repeat(count));
    println!("bytes, firthnapkin, graphql-parser");
    for source in [SMALL].into_iter().chain(repeated.iter().map(String::as_str)) {
        let (mut own, mut peer) = (Duration::MAX, Duration::MAX);
        for _ in 0..6 {
            own = least(own, source, parses);
            peer = least(peer, source, peer_parses);
        }
        println!("{} {:.1} {:.1}", source.len(), own.as_secs_f64() * 1e6, peer.as_secs_f64() * 1e6);
    }
    Ok(())
}
