//! The library as safe Rust: what `include/zilunthar.h` declares, behind types of which each call needs the whole by `&mut`.
//!
//! What stays with the caller is the journal: see "WHAT THE HOST OWES" in the header.

use std::ptr;

/// How many bytes a part has.
pub const PART: usize = 1024;
const RECORD: usize = 1032;
const MESSAGES: usize = 1033;

/// What a call is answered by when it is done.
pub const DONE: u8 = 0;

#[repr(C)]
struct Handle {
    at: *mut u8,
    is_open: bool,
}

/// What a writer is told of its write.
#[repr(C)]
#[derive(Clone, Copy, Default, PartialEq, Eq, Debug)]
pub struct Word {
    /// 4 that it is in, 5 that it is void, 0 nothing
    pub kind: u8,
    pub file: u8,
    pub part: u8,
    pub number: u32,
}

#[repr(C)]
#[derive(Clone, Copy, Default)]
struct Reply {
    record_size: usize,
    message_count: usize,
    message_size: usize,
    told: Word,
}

unsafe extern "C" {
    safe fn zilunthar_terms(rate: u64, short: u64, long: u64) -> u8;
    fn zilunthar_keeper_open(keeper: &mut Handle, long: u64, journal: *const u8, size: usize, whole: &mut usize) -> u8;
    fn zilunthar_keeper_come_up(keeper: &mut Handle, clock: u64) -> u8;
    fn zilunthar_keeper_receive(
        keeper: &mut Handle,
        clock: u64,
        message: *const u8,
        size: usize,
        record: *mut u8,
        record_room: usize,
        messages: *mut u8,
        messages_room: usize,
        reply: &mut Reply,
    ) -> u8;
    fn zilunthar_tablet_open(tablet: &mut Handle, who: u8, short: u64, journal: *const u8, size: usize, whole: &mut usize) -> u8;
    fn zilunthar_tablet_ask(
        tablet: &mut Handle,
        clock: u64,
        file: u8,
        part: u8,
        kind: u8,
        record: *mut u8,
        record_room: usize,
        messages: *mut u8,
        messages_room: usize,
        reply: &mut Reply,
    ) -> u8;
    fn zilunthar_tablet_show(
        tablet: &mut Handle,
        clock: u64,
        file: u8,
        part: u8,
        record: *mut u8,
        record_room: usize,
        copy: *mut u8,
        copy_room: usize,
        reply: &mut Reply,
    ) -> u8;
    fn zilunthar_tablet_write(
        tablet: &mut Handle,
        clock: u64,
        file: u8,
        part: u8,
        bytes: *const u8,
        size: usize,
        record: *mut u8,
        record_room: usize,
        messages: *mut u8,
        messages_room: usize,
        reply: &mut Reply,
    ) -> u8;
    fn zilunthar_tablet_forget(
        tablet: &mut Handle,
        file: u8,
        part: u8,
        record: *mut u8,
        record_room: usize,
        messages: *mut u8,
        messages_room: usize,
        reply: &mut Reply,
    ) -> u8;
    fn zilunthar_tablet_receive(
        tablet: &mut Handle,
        message: *const u8,
        size: usize,
        record: *mut u8,
        record_room: usize,
        messages: *mut u8,
        messages_room: usize,
        reply: &mut Reply,
    ) -> u8;
    fn zilunthar_release(handle: &mut Handle);
}

/// Whether terms fit together: 0, or the number of the first condition that fails.
#[must_use]
pub fn terms(rate: u64, short: u64, long: u64) -> u8 {
    zilunthar_terms(rate, short, long)
}

/// The buffers of a call, and what it left in them.
pub struct Left {
    record: [u8; RECORD],
    messages: [u8; MESSAGES],
    reply: Reply,
}

impl Default for Left {
    fn default() -> Self {
        Left { record: [0; RECORD], messages: [0; MESSAGES], reply: Reply::default() }
    }
}

impl Left {
    /// The record to append and sync before anything else is done with what a call left; no bytes where there is none.
    #[must_use]
    pub fn record(&self) -> &[u8] {
        &self.record[..self.reply.record_size]
    }

    /// The messages to send then.
    pub fn messages(&self) -> impl Iterator<Item = &[u8]> {
        let size = self.reply.message_size;
        (0..self.reply.message_count).map(move |k| &self.messages[k * size..(k + 1) * size])
    }

    /// What the writer is to be told then, if anything.
    #[must_use]
    pub fn told(&self) -> Option<Word> {
        Some(self.reply.told).filter(|word| word.kind != 0)
    }

    // A call that is not made leaves the reply as it was: so nothing is there of the call before.
    fn clear(&mut self) {
        self.reply = Reply::default();
    }
}

// A handle that is released when it goes.
struct Held(Handle);

impl Held {
    fn none() -> Held {
        Held(Handle { at: ptr::null_mut(), is_open: false })
    }
}

impl Drop for Held {
    fn drop(&mut self) {
        // SAFETY: no other call has the handle, and only the library has changed it.
        unsafe { zilunthar_release(&mut self.0) }
    }
}

/// A keeper or a tablet that was opened, and how many bytes of its journal are whole records; or the number of the refusal.
pub type Opened<T> = Result<(T, usize), u8>;

/// A keeper.
pub struct Keeper(Held);

impl Keeper {
    /// From the bytes of its journal. It is not up yet.
    ///
    /// # Errors
    /// The number of the refusal.
    pub fn open(long: u64, journal: &[u8]) -> Opened<Keeper> {
        let (mut held, mut whole) = (Held::none(), 0);
        // SAFETY: the handle is empty, and the pointer and the length are those of one slice.
        let number = unsafe { zilunthar_keeper_open(&mut held.0, long, journal.as_ptr(), journal.len(), &mut whole) };
        if number == DONE { Ok((Keeper(held), whole)) } else { Err(number) }
    }

    /// Comes up at this reading of its clock.
    pub fn come_up(&mut self, clock: u64) -> u8 {
        // SAFETY: the handle is lent to this call alone.
        unsafe { zilunthar_keeper_come_up(&mut self.0.0, clock) }
    }

    /// A message comes.
    pub fn receive(&mut self, clock: u64, message: &[u8], left: &mut Left) -> u8 {
        left.clear();
        let Left { record, messages, reply } = left;
        // SAFETY: each pointer and length are those of one slice, and all that is written is lent to this call alone.
        unsafe {
            zilunthar_keeper_receive(
                &mut self.0.0,
                clock,
                message.as_ptr(),
                message.len(),
                record.as_mut_ptr(),
                RECORD,
                messages.as_mut_ptr(),
                MESSAGES,
                reply,
            )
        }
    }
}

/// A tablet.
pub struct Tablet(Held);

// The blocks below pass pointers and lengths of one slice each, and all that is written is lent to the call alone.
impl Tablet {
    /// Of this borrower, from the bytes of its journal.
    ///
    /// # Errors
    /// The number of the refusal.
    pub fn open(who: u8, short: u64, journal: &[u8]) -> Opened<Tablet> {
        let (mut held, mut whole) = (Held::none(), 0);
        // SAFETY: the handle is empty, and the pointer and the length are those of one slice.
        let number = unsafe { zilunthar_tablet_open(&mut held.0, who, short, journal.as_ptr(), journal.len(), &mut whole) };
        if number == DONE { Ok((Tablet(held), whole)) } else { Err(number) }
    }

    /// Asks for a part, to read it by the kind 0, to write it by 1.
    pub fn ask(&mut self, clock: u64, file: u8, part: u8, kind: u8, left: &mut Left) -> u8 {
        left.clear();
        let Left { record, messages, reply } = left;
        // SAFETY: as above.
        unsafe { zilunthar_tablet_ask(&mut self.0.0, clock, file, part, kind, record.as_mut_ptr(), RECORD, messages.as_mut_ptr(), MESSAGES, reply) }
    }

    /// Shows a part: by 0 its bytes are in `copy`.
    pub fn show(&mut self, clock: u64, file: u8, part: u8, copy: &mut [u8; PART], left: &mut Left) -> u8 {
        left.clear();
        let Left { record, reply, .. } = left;
        // SAFETY: as above.
        unsafe { zilunthar_tablet_show(&mut self.0.0, clock, file, part, record.as_mut_ptr(), RECORD, copy.as_mut_ptr(), PART, reply) }
    }

    /// Writes a part.
    pub fn write(&mut self, clock: u64, file: u8, part: u8, bytes: &[u8], left: &mut Left) -> u8 {
        left.clear();
        let Left { record, messages, reply } = left;
        // SAFETY: as above.
        unsafe {
            zilunthar_tablet_write(
                &mut self.0.0,
                clock,
                file,
                part,
                bytes.as_ptr(),
                bytes.len(),
                record.as_mut_ptr(),
                RECORD,
                messages.as_mut_ptr(),
                MESSAGES,
                reply,
            )
        }
    }

    /// Lets go of the copy of a part.
    pub fn forget(&mut self, file: u8, part: u8, left: &mut Left) -> u8 {
        left.clear();
        let Left { record, messages, reply } = left;
        // SAFETY: as above.
        unsafe { zilunthar_tablet_forget(&mut self.0.0, file, part, record.as_mut_ptr(), RECORD, messages.as_mut_ptr(), MESSAGES, reply) }
    }

    /// A message comes.
    pub fn receive(&mut self, message: &[u8], left: &mut Left) -> u8 {
        left.clear();
        let Left { record, messages, reply } = left;
        // SAFETY: as above.
        unsafe {
            zilunthar_tablet_receive(
                &mut self.0.0,
                message.as_ptr(),
                message.len(),
                record.as_mut_ptr(),
                RECORD,
                messages.as_mut_ptr(),
                MESSAGES,
                reply,
            )
        }
    }
}
