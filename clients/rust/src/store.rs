use crate::change::Words;
use crate::text::{c_place, c_text};
use crate::{sys, Change, Changes, Error, Fault, Mark, Options, Status, Step, SystemError};
use std::os::raw::{c_char, c_int};
use std::path::Path;
use std::ptr::{self, NonNull};
use std::{slice, str};

/// A line that is no change, and so ends a batch.
const STATUS: &[u8] = b"{\"cmd\":\"status\"}\n";

/// An open store. Dropping it closes it.
///
/// Documents, schemas, patches and values are JSON texts; those that a call answers are compact, with members in byte order
/// of their names.
///
/// # Errors
///
/// Each call may be answered [`Error::Refused`], after which nothing has changed and the store goes on; [`Fault::Memory`],
/// [`Fault::Reply`] or [`Fault::Unknown`], after which the session is over and each call is answered [`Fault::Ended`]; and in a
/// child of a fork [`Fault::Forked`].
#[derive(Debug)]
pub struct Store {
    handle: NonNull<sys::Handle>,
    // Changes wait for others, or for a line that is none.
    gathers: bool,
    // What the last lines were answered; the library keeps it until its next call.
    replies: (NonNull<u8>, usize),
    // Whether a fault ended the session behind these replies.
    broken_off: bool,
}

const NO_REPLIES: (NonNull<u8>, usize) = (NonNull::dangling(), 0);

// SAFETY: any thread may make a call, and `&mut self` lets one be made at a time.
unsafe impl Send for Store {}

impl Store {
    /// Opens the store in a file, which stays locked until it is closed. It counts as an opening in the file, and brings a
    /// store of format 1 to format 2.
    ///
    /// # Errors
    ///
    /// [`Fault::InUse`], [`Fault::File`], [`Fault::Device`], [`Fault::Memory`], [`Fault::Processor`], [`Fault::Arguments`] for
    /// a path that is no UTF-8, and the refusals [`Reason::NotAStore`](crate::Reason::NotAStore),
    /// [`Reason::Damaged`](crate::Reason::Damaged) and [`Reason::NoRoom`](crate::Reason::NoRoom).
    pub fn open(path: impl AsRef<Path>) -> Result<Store, Error> {
        Options::new().open(path)
    }

    /// A new store in memory, in format 2, of 3 to 1,048,576 sectors of 512 bytes: for tests, and to try things out.
    ///
    /// # Errors
    ///
    /// [`Fault::Arguments`] for another number of sectors, and [`Fault::Memory`].
    pub fn in_memory(sectors: u64) -> Result<Store, Error> {
        Store::opened(false, |store, cause| {
            // SAFETY: the places for results are the caller's.
            unsafe { sys::jpstore_open_memory(sectors, store, cause) }
        })
    }

    pub(crate) fn opened(
        gathers: bool,
        open: impl FnOnce(*mut *mut sys::Handle, *mut sys::Cause) -> c_int,
    ) -> Result<Store, Error> {
        let (mut handle, mut cause) = (ptr::null_mut(), sys::Cause::NONE);
        let fault = open(&mut handle, &mut cause);
        Error::check(fault, &cause)?;
        let handle = NonNull::new(handle).ok_or(Fault::Unknown)?;
        Ok(Store {
            handle,
            gathers,
            replies: NO_REPLIES,
            broken_off: false,
        })
    }

    /// Makes a document under a schema, and answers the store's new `seq`. The schema `true` accepts every value.
    ///
    /// # Errors
    ///
    /// As all calls; [`Reason::Exists`](crate::Reason::Exists), [`Reason::Invalid`](crate::Reason::Invalid) and others.
    pub fn create(&mut self, name: &str, doc: &str, schema: &str) -> Result<u64, Error> {
        self.apply(&Change::create(name, doc, schema))
    }

    /// Applies JSON Patch operations (RFC 6902), all or none.
    ///
    /// ```
    /// # fn main() -> Result<(), jpstore::Error> {
    /// # let mut store = jpstore::Store::in_memory(64)?;
    /// store.create("shelf-1", r#"{"bolts":40,"nuts":12}"#, "true")?;
    /// let ops = r#"[{"op":"test","path":"/nuts","value":12},{"op":"replace","path":"/nuts","value":11}]"#;
    /// assert_eq!(store.patch("shelf-1", ops), Ok(2));
    /// // The test finds 11 now, and the error tells which operation is at fault.
    /// let error = store.patch("shelf-1", ops).unwrap_err();
    /// assert_eq!(error.refusal().and_then(|refusal| refusal.op), Some(0));
    /// # Ok(())
    /// # }
    /// ```
    ///
    /// # Errors
    ///
    /// As all calls.
    pub fn patch(&mut self, name: &str, ops: &str) -> Result<u64, Error> {
        self.apply(&Change::patch(name, ops))
    }

    /// The same, only if the document has that revision. So what was read is changed, or nothing is:
    ///
    /// ```
    /// use jpstore::{Error, Reason, Store};
    ///
    /// fn take_one(store: &mut Store) -> Result<u64, Error> {
    ///     loop {
    ///         let rev = store.rev("shelf-1")?;
    ///         let bolts: i64 = store.get("shelf-1", "/bolts")?.parse().expect("a number");
    ///         let ops = format!(r#"[{{"op":"replace","path":"/bolts","value":{}}}]"#, bolts - 1);
    ///         match store.patch_if("shelf-1", &ops, rev) {
    ///             Err(Error::Refused(refusal)) if refusal.reason == Reason::Revision => continue,
    ///             done => return done,
    ///         }
    ///     }
    /// }
    /// # fn main() -> Result<(), Error> {
    /// # let mut store = Store::in_memory(64)?;
    /// # store.create("shelf-1", r#"{"bolts":40}"#, "true")?;
    /// # assert_eq!(take_one(&mut store), Ok(2));
    /// # assert_eq!(store.get("shelf-1", "/bolts"), Ok("39"));
    /// # Ok(())
    /// # }
    /// ```
    ///
    /// # Errors
    ///
    /// As all calls; [`Reason::Revision`](crate::Reason::Revision) with the document's revision.
    pub fn patch_if(&mut self, name: &str, ops: &str, rev: u64) -> Result<u64, Error> {
        self.apply(&Change::patch_if(name, ops, rev))
    }

    /// Puts a document under another schema, if it is valid under it.
    ///
    /// # Errors
    ///
    /// As all calls.
    pub fn set_schema(&mut self, name: &str, schema: &str) -> Result<u64, Error> {
        self.apply(&Change::set_schema(name, schema))
    }

    /// Takes a document away. The others keep their order.
    ///
    /// # Errors
    ///
    /// As all calls.
    pub fn delete(&mut self, name: &str) -> Result<u64, Error> {
        self.apply(&Change::delete(name))
    }

    /// Makes one change, and answers the store's new `seq`.
    ///
    /// # Errors
    ///
    /// As all calls.
    pub fn apply(&mut self, change: &Change) -> Result<u64, Error> {
        self.apply_words(&Words::of(slice::from_ref(change)))
    }

    /// Makes 1 to 1,024 changes, all or none, each judged after those before it; answers the `seq` of the last. With a mark,
    /// [`Store::apply`] does so for [`Change::transaction`].
    ///
    /// # Errors
    ///
    /// As all calls; [`Refusal::change`](crate::Refusal::change) tells which change is at fault.
    pub fn transaction(&mut self, changes: &[Change]) -> Result<u64, Error> {
        self.apply_words(&Words::of_transaction(changes))
    }

    /// Makes changes one after another, which share commits if the store has a batch ([`Options::batch`]). One that is
    /// refused doesn't hold up the others.
    ///
    /// Answers for each change its `seq`, or why it wasn't made. If a fault ends the session, those that were answered
    /// before are told as they were answered, and the others have the fault.
    ///
    /// ```
    /// use jpstore::{Change, Store};
    ///
    /// # fn main() -> Result<(), jpstore::Error> {
    /// let mut store = Store::in_memory(64)?;
    /// let outcomes = store.group(&[Change::create("a", "1", "true"), Change::delete("b"), Change::delete("a")]);
    /// assert_eq!(outcomes[0], Ok(1));
    /// assert_eq!(outcomes[1].as_ref().unwrap_err().to_string(), "21 no-document");
    /// assert_eq!(outcomes[2], Ok(2));
    /// # Ok(())
    /// # }
    /// ```
    pub fn group(&mut self, changes: &[Change]) -> Vec<Result<u64, Error>> {
        let nothing = sys::Outcome {
            fault: 0,
            seq: 0,
            cause: sys::Cause::NONE,
        };
        let words = Words::of(changes);
        let mut outcomes = vec![nothing; changes.len()];
        // SAFETY: the words have as many changes as there are outcomes, and live as long as the call.
        unsafe {
            sys::jpstore_group(
                self.called(),
                words.as_ptr(),
                outcomes.len(),
                outcomes.as_mut_ptr(),
                ptr::null_mut(),
            )
        };
        let told = |outcome: &sys::Outcome| Error::check(outcome.fault, &outcome.cause);
        outcomes
            .iter()
            .map(|outcome| told(outcome).map(|()| outcome.seq))
            .collect()
    }

    /// The value at a place of a document, a JSON Pointer (RFC 6901); the empty place is the whole document.
    ///
    /// # Errors
    ///
    /// As all calls, and [`Fault::Arguments`] for a place with a character 0: [`Store::query`] reaches it as `\u0000`.
    pub fn get(&mut self, name: &str, place: &str) -> Result<&str, Error> {
        let (name, place) = (c_text(name), c_place(place)?);
        self.text(|store, value, length, cause| {
            // SAFETY: the texts end by 0 and live as long as the call.
            unsafe { sys::jpstore_get(store, name.as_ptr(), place.as_ptr(), value, length, cause) }
        })
    }

    /// The nodes that a JSONPath query (RFC 9535) selects: a list of objects with `path` and `value`, in order.
    ///
    /// ```
    /// # fn main() -> Result<(), jpstore::Error> {
    /// # let mut store = jpstore::Store::in_memory(64)?;
    /// store.create("shelf-1", r#"{"bolts":40,"nuts":12}"#, "true")?;
    /// assert_eq!(store.query("shelf-1", "$[?@ < 20]"), Ok(r#"[{"path":"$['nuts']","value":12}]"#));
    /// # Ok(())
    /// # }
    /// ```
    ///
    /// # Errors
    ///
    /// As all calls.
    pub fn query(&mut self, name: &str, query: &str) -> Result<&str, Error> {
        let (name, query) = (c_text(name), c_text(query));
        self.text(|store, nodes, length, cause| {
            // SAFETY: the texts end by 0 and live as long as the call.
            unsafe {
                sys::jpstore_query(store, name.as_ptr(), query.as_ptr(), nodes, length, cause)
            }
        })
    }

    /// The schema of a document.
    ///
    /// # Errors
    ///
    /// As all calls.
    pub fn schema(&mut self, name: &str) -> Result<&str, Error> {
        let name = c_text(name);
        self.text(|store, schema, length, cause| {
            // SAFETY: the text ends by 0 and lives as long as the call.
            unsafe { sys::jpstore_schema(store, name.as_ptr(), schema, length, cause) }
        })
    }

    /// The names of the documents, in the order of their creation.
    ///
    /// # Errors
    ///
    /// As all calls.
    pub fn list(&mut self) -> Result<Vec<String>, Error> {
        let names = self.text(|store, names, length, cause| {
            // SAFETY: the store and the places for results are this call's.
            unsafe { sys::jpstore_list(store, names, length, cause) }
        })?;
        // A name has letters, digits, '-', '_' and '.' alone.
        Ok(names
            .split(['[', ']', ',', '"'])
            .filter(|name| !name.is_empty())
            .map(str::to_owned)
            .collect())
    }

    /// The revision of a document: the `seq` of the last creation, patch or schema of it.
    ///
    /// # Errors
    ///
    /// As all calls.
    pub fn rev(&mut self, name: &str) -> Result<u64, Error> {
        let name = c_text(name);
        self.number(|store, rev, cause| {
            // SAFETY: the text ends by 0 and lives as long as the call.
            unsafe { sys::jpstore_rev(store, name.as_ptr(), rev, cause) }
        })
    }

    /// The mark of a key, in format 3, which a change has set ([`Change::with_mark`]).
    ///
    /// # Errors
    ///
    /// As all calls.
    pub fn mark(&mut self, key: &str) -> Result<Option<Mark>, Error> {
        let key = c_text(key);
        let (mut value, mut length, mut seq) = (ptr::null(), 0, 0);
        let (store, mut cause) = (self.called(), sys::Cause::NONE);
        // SAFETY: the text ends by 0 and lives as long as the call, and the places for results are this call's.
        let fault = unsafe {
            let key = key.as_ptr();
            sys::jpstore_mark(store, key, &mut value, &mut length, &mut seq, &mut cause)
        };
        Error::check(fault, &cause)?;
        // SAFETY: the text is the store's until its next call.
        Ok(unsafe { Mark::of(value, length, seq) })
    }

    /// The transactions after the change `since`, each whole: the first `max_bytes` of them, 1 to 4,194,304, and one at
    /// least. Nothing is waited for.
    ///
    /// ```
    /// use jpstore::{Changes, Store};
    ///
    /// # fn main() -> Result<(), jpstore::Error> {
    /// let mut store = Store::in_memory(64)?;
    /// store.create("shelf-1", r#"{"bolts":40}"#, "true")?;
    /// let since = store.status()?.seq;
    /// store.delete("shelf-1")?;
    /// match store.changes(since, 1 << 20)? {
    ///     Changes::Known(transactions) => {
    ///         assert_eq!(transactions[0].changes, [r#"{"cmd":"delete","name":"shelf-1"}"#]);
    ///         assert_eq!(transactions[0].last, 2);
    ///     }
    ///     other => panic!("read the documents anew: {other:?}"),
    /// }
    /// # Ok(())
    /// # }
    /// ```
    ///
    /// # Errors
    ///
    /// As all calls.
    pub fn changes(&mut self, since: u64, max_bytes: u64) -> Result<Changes, Error> {
        let (mut list, mut length, mut from) = (ptr::null(), 0, 0);
        let (store, mut cause) = (self.called(), sys::Cause::NONE);
        // SAFETY: the store and the places for results are this call's.
        let fault = unsafe {
            let (list, length, from) = (&mut list, &mut length, &mut from);
            sys::jpstore_changes(store, since, max_bytes, list, length, from, &mut cause)
        };
        Error::check(fault, &cause)?;
        if list.is_null() {
            return Ok(Changes::Gone(from));
        }
        // SAFETY: the text has this length, and is the store's until its next call.
        let list = text_of(unsafe { slice::from_raw_parts(list.cast(), length) })?;
        Ok(Changes::of(list).ok_or(Fault::Unknown)?)
    }

    /// What the store tells of itself.
    ///
    /// # Errors
    ///
    /// As all calls.
    pub fn status(&mut self) -> Result<Status, Error> {
        let (mut found, mut cause) = (sys::State::default(), sys::Cause::NONE);
        // SAFETY: the store and the places for results are this call's.
        let fault = unsafe { sys::jpstore_status(self.called(), &mut found, &mut cause) };
        Error::check(fault, &cause).map(|()| found.into())
    }

    /// Writes the store anew without the history of its changes, which makes room; answers how many bytes are used then.
    ///
    /// # Errors
    ///
    /// As all calls; [`Reason::Full`](crate::Reason::Full) if it is longer than a half.
    pub fn snapshot(&mut self) -> Result<u64, Error> {
        self.number(|store, used, cause| {
            // SAFETY: the store and the places for results are this call's.
            unsafe { sys::jpstore_snapshot(store, used, cause) }
        })
    }

    /// Makes one step of a snapshot that is copied between changes, of 1 to 1,000,000 sectors at most. Answers what it left,
    /// and how many sectors it wrote.
    ///
    /// # Errors
    ///
    /// As all calls.
    pub fn pump(&mut self, sectors: u64) -> Result<(Step, u64), Error> {
        let (mut step, mut wrote, mut cause) = (0, 0, sys::Cause::NONE);
        let store = self.called();
        // SAFETY: the store and the places for results are this call's.
        let fault = unsafe { sys::jpstore_pump(store, sectors, &mut step, &mut wrote, &mut cause) };
        Error::check(fault, &cause)?;
        Ok((Step::of(step).ok_or(Fault::Unknown)?, wrote))
    }

    /// Sends lines of `docs/use/PROTOCOL.md`, each with its line feed, and answers their replies: one line for each that isn't
    /// blank, in order.
    ///
    /// With a batch, the changes among these lines share commits, and none waits for those of a later call. After a fault
    /// [`Store::replies_before_fault`] has what was answered.
    ///
    /// ```
    /// # fn main() -> Result<(), jpstore::Error> {
    /// # let mut store = jpstore::Store::in_memory(64)?;
    /// assert_eq!(store.feed("{\"cmd\":\"list\"}\n"), Ok("{\"names\":[],\"ok\":true}\n"));
    /// # Ok(())
    /// # }
    /// ```
    ///
    /// # Errors
    ///
    /// As all calls, but for refusals, which are among the replies; [`Error::Unsendable`] if the last line has no line feed.
    pub fn feed(&mut self, lines: impl AsRef<[u8]>) -> Result<&str, Error> {
        let lines = lines.as_ref();
        self.replies = NO_REPLIES;
        if lines.last().map_or(false, |&last| last != b'\n') {
            return Err(Error::Unsendable);
        }
        let count = lines.split(is_end).filter(|line| !is_blank(line)).count();
        let replies = if self.gathers {
            self.send(&[lines, STATUS].concat())?;
            without_last_line(self.last_replies()?)?
        } else {
            self.send(lines)?;
            self.last_replies()?
        };
        if replies.matches('\n').count() != count {
            return Err(Fault::Unknown.into());
        }
        Ok(replies)
    }

    /// What the first lines were answered if the last [`Store::feed`] ended with a fault, as with [`Fault::Reply`]: one line
    /// for each. These replies are true, and lines after them may have been done too.
    pub fn replies_before_fault(&self) -> &str {
        match self.last_replies() {
            Ok(replies) if self.broken_off => replies,
            _ => "",
        }
    }

    /// Why the last call of the system for the store's file failed, as after [`Reason::Device`](crate::Reason::Device);
    /// `None` if none has.
    pub fn system_error(&self) -> Option<SystemError> {
        // SAFETY: no other call is under way, as a `&Store` can't be sent to another thread.
        let number = unsafe { sys::jpstore_system_error(self.handle.as_ptr()) };
        Some(SystemError(number)).filter(|_| number != 0)
    }

    /// Ends the session and closes the file. Dropping the store does so too, and tells nothing.
    ///
    /// # Errors
    ///
    /// [`Fault::Device`] if the disk failed in the session: all that was answered is true all the same.
    pub fn close(mut self) -> Result<(), Error> {
        // SAFETY: the store is this call's, and NULL is allowed for the replies, of which none are left.
        let fault = unsafe { sys::jpstore_finish(self.called(), ptr::null_mut(), ptr::null_mut()) };
        let mut cause = sys::Cause::NONE;
        cause.system_error = self.system_error().map_or(0, SystemError::raw_os_error);
        Error::check(fault, &cause)
    }

    // The store for a call, which takes away what earlier ones were answered.
    fn called(&mut self) -> *mut sys::Handle {
        self.replies = NO_REPLIES;
        self.handle.as_ptr()
    }

    fn apply_words(&mut self, words: &Words) -> Result<u64, Error> {
        self.number(|store, seq, cause| {
            // SAFETY: the words have one change at least, and live as long as the call.
            unsafe { sys::jpstore_apply(store, words.as_ptr(), seq, cause) }
        })
    }

    // What a call answers that gives a number.
    fn number(
        &mut self,
        call: impl FnOnce(*mut sys::Handle, *mut u64, *mut sys::Cause) -> c_int,
    ) -> Result<u64, Error> {
        let (mut number, mut cause) = (0, sys::Cause::NONE);
        let fault = call(self.called(), &mut number, &mut cause);
        Error::check(fault, &cause).map(|()| number)
    }

    // What a call answers that gives a text.
    fn text(
        &mut self,
        call: impl FnOnce(*mut sys::Handle, *mut *const c_char, *mut usize, *mut sys::Cause) -> c_int,
    ) -> Result<&str, Error> {
        let (mut bytes, mut length, mut cause) = (ptr::null(), 0, sys::Cause::NONE);
        let fault = call(self.called(), &mut bytes, &mut length, &mut cause);
        Error::check(fault, &cause)?;
        // SAFETY: after JPSTORE_OK the text has this length. It is the store's until its next call, which takes `&mut self`.
        text_of(unsafe { slice::from_raw_parts(bytes.cast(), length) })
    }

    fn send(&mut self, lines: &[u8]) -> Result<(), Error> {
        let (mut replies, mut length) = (ptr::null(), 0);
        let (store, input, size) = (self.called(), lines.as_ptr().cast(), lines.len());
        // SAFETY: the lines have this size, and aren't kept.
        let fault = unsafe { sys::jpstore_feed(store, input, size, &mut replies, &mut length) };
        self.replies =
            NonNull::new(replies as *mut u8).map_or(NO_REPLIES, |replies| (replies, length));
        self.broken_off = fault != 0;
        Error::check(fault, &sys::Cause::NONE)
    }

    // The whole replies to the last lines.
    fn last_replies(&self) -> Result<&str, Error> {
        // SAFETY: they are the store's until the next call, which takes `&mut self` and them away.
        let replies = unsafe { slice::from_raw_parts(self.replies.0.as_ptr(), self.replies.1) };
        let whole = replies.iter().rposition(is_end).map_or(0, |at| at + 1);
        text_of(&replies[..whole])
    }
}

impl Drop for Store {
    fn drop(&mut self) {
        // SAFETY: nothing else has the store, and it isn't used again.
        unsafe { sys::jpstore_free(self.handle.as_ptr()) }
    }
}

fn is_end(byte: &u8) -> bool {
    *byte == b'\n'
}

// Such a line has no reply.
fn is_blank(line: &[u8]) -> bool {
    line.iter().all(|byte| matches!(byte, b' ' | b'\t' | b'\r'))
}

fn without_last_line(replies: &str) -> Result<&str, Error> {
    let rest = replies.strip_suffix('\n').ok_or(Fault::Unknown)?;
    Ok(&replies[..rest.rfind('\n').map_or(0, |at| at + 1)])
}

// What the store writes are JSON texts in UTF-8.
fn text_of(bytes: &[u8]) -> Result<&str, Error> {
    str::from_utf8(bytes).map_err(|_| Fault::Unknown.into())
}
