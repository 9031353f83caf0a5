//! The messages that a scheduler has, by the numbers under which it knows them.

/// A message that was handed over and is not done.
pub(crate) struct Message<P, M> {
    pub origin: P,
    pub recipient: P,
    pub channel: u64,
    pub payload: M,
}

/// Messages by number. A number is free again once its message was taken out.
pub(crate) struct Held<P, M> {
    slots: Vec<Option<Message<P, M>>>,
    free: Vec<usize>,
}

impl<P, M> Held<P, M> {
    pub fn new() -> Held<P, M> {
        Held {
            slots: Vec::new(),
            free: Vec::new(),
        }
    }

    /// Puts a message in, and answers its number.
    pub fn put(&mut self, message: Message<P, M>) -> u64 {
        let slot = Some(message);
        match self.free.pop() {
            Some(number) => {
                self.slots[number] = slot;
                number as u64
            }
            None => {
                self.slots.push(slot);
                self.slots.len() as u64 - 1
            }
        }
    }

    /// Takes the message of that number out.
    pub fn take(&mut self, number: u64) -> Message<P, M> {
        self.free.push(number as usize);
        let message = self.slots[number as usize].take();
        message.expect("the library answers each message once")
    }

    /// The message of that number.
    pub fn get(&self, number: u64) -> &Message<P, M> {
        let message = self.slots[number as usize].as_ref();
        message.expect("what is in flight is held")
    }
}
