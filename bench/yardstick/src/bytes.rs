//! Bytes in a place of fixed room, and a queue of messages in places that were made at its start.

use crate::packets::LARGEST;

/// What a message or a packet is written to.
pub trait Sink {
    fn put(&mut self, bytes: &[u8]);
}

impl Sink for Vec<u8> {
    fn put(&mut self, bytes: &[u8]) {
        self.extend_from_slice(bytes);
    }
}

/// Up to `ROOM` bytes.
pub struct Bytes<const ROOM: usize> {
    bytes: [u8; ROOM],
    length: usize,
}

/// The bytes of one packet.
pub type Burst = Bytes<LARGEST>;

/// A code and its data: at most what a packet with a checksum has room for.
pub type Body = Bytes<{ LARGEST - 6 }>;

impl<const ROOM: usize> Bytes<ROOM> {
    pub const fn new() -> Self {
        Bytes { bytes: [0; ROOM], length: 0 }
    }

    #[inline]
    pub fn as_slice(&self) -> &[u8] {
        &self.bytes[..self.length]
    }

    #[inline]
    pub fn as_mut_slice(&mut self) -> &mut [u8] {
        &mut self.bytes[..self.length]
    }

    #[inline]
    pub fn clear(&mut self) {
        self.length = 0;
    }
}

impl<const ROOM: usize> Default for Bytes<ROOM> {
    fn default() -> Self {
        Self::new()
    }
}

impl<const ROOM: usize> Sink for Bytes<ROOM> {
    #[inline]
    fn put(&mut self, bytes: &[u8]) {
        let end = self.length + bytes.len();
        self.bytes[self.length..end].copy_from_slice(bytes);
        self.length = end;
    }
}

/// Messages that wait, first in, first out. A message is written into its place, and read from there: it isn't moved.
pub struct Queue {
    places: Box<[Body]>,
    first: usize,
    count: usize,
}

impl Queue {
    /// Room for so many messages, 1 or more.
    pub fn new(capacity: usize) -> Queue {
        Queue { places: (0..capacity).map(|_| Body::new()).collect(), first: 0, count: 0 }
    }

    pub fn len(&self) -> usize {
        self.count
    }

    pub fn is_empty(&self) -> bool {
        self.count == 0
    }

    /// The place after the last message, empty, and counted from now on. None where there is no room.
    pub fn push(&mut self) -> Option<&mut Body> {
        if self.count == self.places.len() {
            return None;
        }
        let place = self.wrapped(self.first + self.count);
        self.count += 1;
        let body = &mut self.places[place];
        body.clear();
        Some(body)
    }

    /// The message that has waited longest.
    pub fn front(&self) -> Option<&[u8]> {
        (self.count > 0).then(|| self.places[self.first].as_slice())
    }

    /// The same, which waits no more. Its place holds it until another takes the place.
    pub fn pop(&mut self) -> Option<&[u8]> {
        if self.count == 0 {
            return None;
        }
        let place = self.first;
        self.first = self.wrapped(self.first + 1);
        self.count -= 1;
        Some(self.places[place].as_slice())
    }

    fn wrapped(&self, place: usize) -> usize {
        if place < self.places.len() {
            place
        } else {
            place - self.places.len()
        }
    }
}
