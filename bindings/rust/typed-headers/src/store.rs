use alloc::vec::Vec;

use typed_headers_sys as sys;

use crate::error::{check, Error};
use crate::lock::{Locked, Owned};
use crate::text::{text, written, Section};
use crate::Keys;

/// How much a cache stores, and for whom.
#[derive(Clone, Copy, Debug, PartialEq, Eq, Hash)]
pub struct CacheOptions {
    /// How many responses there may be under one target.
    pub variants: usize,
    /// How many responses there may be in all.
    pub responses: usize,
    /// How many bytes there may be in all, of targets, contents and fields.
    pub content: usize,
    /// For how many seconds a response is guessed to be fresh at most, if it states no lifetime; 0 for none.
    pub guess: u64,
    /// Whether it serves several users.
    pub is_shared: bool,
    /// For how many seconds a GET without Range waits at most for another that asks the origin for the same; 0 for none.
    pub wait: u64,
}

impl CacheOptions {
    /// A cache of several users, as a proxy's, with 64 MiB of content.
    pub const fn shared() -> CacheOptions {
        CacheOptions { variants: 16, responses: 4096, content: 64 * 1024 * 1024, guess: 0, is_shared: true, wait: 0 }
    }

    /// A cache of one user, as a browser's, with 64 MiB of content.
    pub const fn private() -> CacheOptions {
        CacheOptions { is_shared: false, ..CacheOptions::shared() }
    }
}

/// A request to a cache.
#[derive(Clone, Copy, Debug)]
pub struct CacheRequest<'a> {
    /// Its method.
    pub method: &'a str,
    /// Its target: a URI, as a text that is made the same way each time.
    pub target: &'a str,
    /// Its fields.
    pub fields: &'a Section,
}

/// A stored response that a client gets.
#[derive(Clone, Debug, PartialEq, Eq, Hash)]
#[non_exhaustive]
pub struct Reply {
    /// Its status.
    pub status: u16,
    /// Its fields, with its present Age.
    pub fields: Section,
    /// Its content, or the part of it that is sent: nothing to HEAD.
    pub content: Vec<u8>,
    /// Whether it is then validated for nobody: by a new pass with the fields of [`Pass::validation`].
    pub validates: bool,
}

/// What is done after a step of a pass.
#[derive(Clone, Debug, PartialEq, Eq, Hash)]
#[non_exhaustive]
pub enum Step {
    /// The client gets this stored response. The pass has ended.
    Reply(Reply),
    /// The origin is asked by the request as it is.
    Ask,
    /// The origin is asked by the request with these fields in place of its If-None-Match and If-Modified-Since.
    Validate(Section),
    /// The client gets 504: the request forbids to ask the origin. The pass has ended.
    Unavailable,
    /// The client gets what the origin answered. If `stores` is true, [`Pass::received`] gets its content, too, and then
    /// comes [`Pass::ended`].
    PassOn {
        /// Whether the pass goes on.
        stores: bool,
    },
    /// The client gets 502 or 504: no response came, and no stored one may be sent. The pass has ended.
    NoResponse,
    /// Another pass asks the origin for the same. Call [`Pass::resume`] once some pass has ended, or after a moment.
    Wait,
}

/// What is stored of responses in bounded memory (RFC 9111). Requests go through it as passes, in any threads. Times are
/// those of one clock, in seconds since 1970.
///
/// ```
/// use typed_headers::{Cache, CacheOptions, CacheRequest, Keys, Section, Step};
///
/// let cache = Cache::new(CacheOptions::shared(), Keys::random())?;
/// let fields = Section::new();
/// let request = CacheRequest { method: "GET", target: "http://a.example/", fields: &fields };
/// let (mut first, step) = cache.begin(&request, 1000)?;
/// assert_eq!(step, Step::Ask);
/// let came = Section::parse("Cache-Control: max-age=60\n")?;
/// assert_eq!(first.came(200, &came, 1000)?, Some(Step::PassOn { stores: true }));
/// assert_eq!(first.received(b"hello")?, Some(()));
/// assert_eq!(first.ended(true, 1000)?, Some(true));
/// let (_, Step::Reply(reply)) = cache.begin(&request, 1010)? else { panic!("it is fresh") };
/// assert_eq!((reply.status, reply.content.as_slice()), (200, b"hello".as_slice()));
/// # Ok::<(), typed_headers::Error>(())
/// ```
#[derive(Debug)]
pub struct Cache(Locked<sys::Cache>);

impl Cache {
    /// An empty cache.
    pub fn new(options: CacheOptions, keys: Keys) -> Result<Cache, Error> {
        let mut handle = Owned::closed();
        let CacheOptions { variants, responses, content: bytes, guess, is_shared, wait } = options;
        let options = sys::CacheOptions { variants, responses, bytes, guess, is_shared };
        let extensions = sys::CacheExtensions { targets: text(b""), immutable: false, wait };
        // SAFETY: the handle is closed, and doesn't move while a call is made.
        check(unsafe { sys::typed_headers_cache_new_with(handle.alone(), &options, &extensions, &keys.0) })?;
        Ok(Cache(Locked::new(handle)))
    }

    /// Begins a pass for a request, and says what is done first (section 4).
    pub fn begin(&self, request: &CacheRequest<'_>, now: u64) -> Result<(Pass<'_>, Step), Error> {
        let mut pass = Pass { cache: self, handle: Owned::closed() };
        let asked = sys::CacheRequest {
            target: text(request.target.as_bytes()),
            method: text(request.method.as_bytes()),
            section: text(request.fields.as_bytes()),
        };
        // SAFETY: here and below the handles are in this call alone, and the others are pointers and counts of slices
        // and of values, which don't overlap.
        let step = pass.step(|cache, pass, facts| unsafe {
            sys::typed_headers_pass_begin(cache, pass, &asked, now, facts)
        })?;
        Ok((pass, step.unwrap_or(Step::Ask)))
    }

    /// Removes what is stored under a target. What was asked for it before isn't stored any more either.
    pub fn remove(&self, target: &str) -> Result<(), Error> {
        // SAFETY: as above.
        check(self.0.with(|cache| unsafe { sys::typed_headers_cache_remove(cache, target.as_ptr(), target.len()) }))?;
        Ok(())
    }
}

/// One client's request through a cache. Steps of several passes may interleave in any way: each holds the cache for
/// itself. A step that the pass isn't at gives `None`, and changes nothing. Once a pass is dropped, no other waits for it.
#[derive(Debug)]
pub struct Pass<'a> {
    cache: &'a Cache,
    handle: Owned<sys::Pass>,
}

impl Drop for Pass<'_> {
    fn drop(&mut self) {
        // (the steps that it isn't at change nothing)
        let _ = self.failed(0);
        let _ = self.ended(false, 0);
    }
}

impl Pass<'_> {
    /// Says what is done after a wait.
    pub fn resume(&mut self, now: u64) -> Result<Option<Step>, Error> {
        // SAFETY: as above.
        self.step(|cache, pass, facts| unsafe { sys::typed_headers_pass_resume(cache, pass, now, facts) })
    }

    /// Says what is done with the status and the fields of the origin's response.
    pub fn came(&mut self, status: u16, response: &Section, now: u64) -> Result<Option<Step>, Error> {
        let section = response.as_bytes();
        // SAFETY: as above.
        self.step(|cache, pass, facts| unsafe {
            sys::typed_headers_pass_came(cache, pass, status, section.as_ptr(), section.len(), now, facts)
        })
    }

    /// Says what is done if no response of the origin came.
    pub fn failed(&mut self, now: u64) -> Result<Option<Step>, Error> {
        // SAFETY: as above.
        self.step(|cache, pass, facts| unsafe { sys::typed_headers_pass_failed(cache, pass, now, facts) })
    }

    /// Keeps the next piece of the content that passes on, to be stored. If the pieces are more than the cache may have,
    /// or on [`Error::OutOfMemory`], the pass keeps none: nothing is stored.
    pub fn received(&mut self, piece: &[u8]) -> Result<Option<()>, Error> {
        let pass = self.handle.alone();
        // SAFETY: as above.
        let is_done = check(unsafe { sys::typed_headers_pass_received(pass, piece.as_ptr(), piece.len()) })?;
        Ok(is_done.then_some(()))
    }

    /// Stores the response that passed on, if all of its content came and it may be stored, and returns whether it is.
    /// On [`Error::OutOfMemory`] it isn't.
    pub fn ended(&mut self, is_complete: bool, now: u64) -> Result<Option<bool>, Error> {
        let (pass, mut number) = (self.handle.alone(), 0);
        // SAFETY: as above.
        let is_done = check(self.cache.0.with(|cache| unsafe {
            sys::typed_headers_pass_ended(cache, pass, is_complete, now, &mut number)
        }))?;
        Ok(is_done.then_some(number != 0))
    }

    /// The fields of the request by which what was sent stale is validated for nobody (RFC 5861, section 3): a new pass
    /// begins with them, of the same method and target, and they are forwarded.
    pub fn validation(&mut self) -> Result<Section, Error> {
        let pass: *mut sys::Pass = self.handle.alone();
        // SAFETY: as above.
        let found = written(512, |room: *mut u8, length, count| unsafe {
            sys::typed_headers_pass_validation(pass, room, length, count)
        })?;
        Ok(Section::from_bytes(found.map_or(Vec::new(), |(lines, _)| lines)))
    }

    // Makes a step while the cache is held, and then reads what it names.
    fn step(
        &mut self,
        call: impl FnOnce(*mut sys::Cache, *mut sys::Pass, *mut sys::PassFacts) -> u8,
    ) -> Result<Option<Step>, Error> {
        let pass: *mut sys::Pass = self.handle.alone();
        let mut facts = sys::PassFacts::default();
        if !check(self.cache.0.with(|cache| call(cache, pass, &mut facts)))? {
            return Ok(None);
        }
        // SAFETY: as above.
        let fields = || {
            written(512, |room: *mut u8, length, count| unsafe {
                sys::typed_headers_pass_fields(pass, room, length, count)
            })
            .map(|found| Section::from_bytes(found.map_or(Vec::new(), |(lines, _)| lines)))
        };
        Ok(Some(match facts.action {
            0 | 1 => {
                let most = facts.count as usize;
                let (mut content, mut count) = (alloc::vec![0; most.max(1)], 0);
                // SAFETY: as above.
                check(unsafe {
                    let (first, room) = (facts.first as usize, content.as_mut_ptr());
                    sys::typed_headers_pass_content(pass, first, room, most, &mut count)
                })?;
                content.truncate(count);
                Step::Reply(Reply { status: facts.status, fields: fields()?, content, validates: facts.action == 1 })
            }
            2 => Step::Ask,
            3 => Step::Validate(fields()?),
            4 => Step::Unavailable,
            5 | 6 => Step::PassOn { stores: facts.action == 5 },
            8 => Step::Wait,
            _ => Step::NoResponse,
        }))
    }
}
