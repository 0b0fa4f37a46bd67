//! Times hits of a cache, and prints the nanoseconds of one, the least of some rounds.
//!
//! The arguments are how many responses are stored, each for its own target; `none` or `all`, for the
//! options of the store; the rounds; and the lookups of a round. A thousand targets are looked up in turn.
#![tactic(auto)]

use anyhow::{Result, anyhow};
use headers::{HeaderMap, HeaderName, HeaderValue};
use cache_store::{Limits, Lookup, Options, Store};
use cache_policy::{Kind, RequestHead};
use cache_rules::{Reception, StoredResponse};
use http::{Method, StatusCode};
use std::alloc::Global;
use std::hash::RandomState;
use std::time::Instant;

const STORED: u64 = 1_795_657_000;
const NOW: u64 = STORED + 10;
const IN_TURN: usize = 1000;

fn target(alloc: Global, index: usize) -> Result<String> {
    Ok(format!(in alloc; "https://www.example.com/articles/{index}")?)
}

fn request(alloc: Global) -> Result<HeaderMap> {
    let mut fields = HeaderMap::new(alloc);
    for (name, value) in [
        ("host", "www.example.com"),
        ("user-agent", "Mozilla/5.0 (X11; Linux x86_64; rv:132.0) Gecko/20100101 Firefox/132.0"),
        ("accept", "text/html,application/xhtml+xml,application/xml;q=0.9,*/*;q=0.8"),
        ("accept-language", "en-US,en;q=0.5"),
        ("accept-encoding", "gzip, deflate, br, zstd"),
    ] {
        fields.append(name, HeaderValue::from_static(value))?;
    }
    Ok(fields)
}

fn response(alloc: Global) -> Result<HeaderMap> {
    let mut fields = HeaderMap::new(alloc);
    for (name, value) in [
        ("date", "Thu, 26 Nov 2026 01:36:40 GMT"),
        ("cache-control", "public, max-age=3600"),
        ("cdn-cache-control", "max-age=3600"),
        ("vary", "Accept-Encoding"),
        ("etag", "\"33a64df551425fcc\""),
        ("content-type", "text/html; charset=utf-8"),
    ] {
        fields.append(name, HeaderValue::from_static(value))?;
    }
    Ok(fields)
}

fn options(alloc: Global, has_options: bool) -> Result<Options> {
    let mut targets = Vec::new(alloc);
    if has_options {
        targets.push(HeaderName::from_static("cdn-cache-control"))?;
    }
    Ok(Options {
        immutable: has_options,
        targets,
    })
}

fn fill(alloc: Global, store: &mut Store, count: usize) -> Result<()> {
    for index in 0..count {
        let came = StoredResponse {
            method: Method::GET,
            request: request(alloc)?,
            status: StatusCode::OK,
            response: response(alloc)?,
            content: Vec::new(alloc),
            requested: STORED,
            received: STORED,
        };
        let name = target(alloc, index)?;
        if !store.store(alloc, name.as_str(), came, Reception::Complete)? {
            return Err(anyhow!("a response isn't stored"));
        }
    }
    Ok(())
}

fn look_up(
    alloc: Global,
    store: &mut Store,
    targets: &[String],
    fields: &HeaderMap,
    lookups: usize,
) -> Result<()> {
    let method = Method::GET;
    let request = RequestHead {
        method: &method,
        fields,
    };
    let mut at = 0;
    for _ in 0..lookups {
        match store.lookup(alloc, targets[at].as_str(), &request, NOW)? {
            Lookup::Serve(_, _) => {}
            _ => return Err(anyhow!("a lookup isn't a hit")),
        }
        at += 1;
        if at == targets.len() {
            at = 0;
        }
    }
    Ok(())
}

fn main(rt: HostRuntime) -> Result<()> {
    let alloc = rt.alloc();
    let arguments: Vec<String> = std::env::args(&rt)?.collect(alloc)?;
    let [_, count, options_word, rounds, lookups] = arguments.as_slice() else {
        return Err(anyhow!("the arguments are RESPONSES OPTIONS ROUNDS LOOKUPS"));
    };
    let count: usize = count.as_str().parse()?;
    let rounds: usize = rounds.as_str().parse()?;
    let lookups: usize = lookups.as_str().parse()?;
    let limits = Limits {
        variants: 4,
        responses: count,
        bytes: 1 << 40,
    };
    let options = options(alloc, options_word.as_str() == "all")?;
    let keys = RandomState::new(&rt)?;
    let mut store = Store::with_options(alloc, Kind::Shared, options, limits, keys)?;
    fill(alloc, &mut store, count)?;

    let mut targets = Vec::new(alloc);
    let step = (count / IN_TURN).max(1);
    for index in 0..count.min(IN_TURN) {
        targets.push(target(alloc, index * step)?)?;
    }
    let fields = request(alloc)?;
    let mut least = u64::MAX;
    for _ in 0..rounds {
        let start = Instant::now(&rt)?;
        look_up(alloc, &mut store, targets.as_slice(), &fields, lookups)?;
        let nanoseconds = start.elapsed(&rt)?.as_nanos() as u64;
        least = least.min(nanoseconds / lookups as u64);
    }
    println!(rt; "{least}")?;
    Ok(())
}
