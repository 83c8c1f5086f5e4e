//! Reads stored calls: slots with numbers and with the places and lengths of areas, and what lent
//! areas hold after the call.

use hencouch::Refusal;
use std::fmt::Debug;

/// A number of an area, as it is stored.
pub trait Number: Copy + Debug + PartialEq {
    /// What a lent area is full of before the call.
    const BEFORE: Self;

    /// From its bytes, high byte first, which may have others before them.
    fn read(bytes: &[u8]) -> Self;

    const BYTES: usize;
}

macro_rules! number {
    ($sort:ty, $bytes:literal) => {
        impl Number for $sort {
            const BEFORE: Self = <$sort>::from_be_bytes([0xa5; $bytes]);

            const BYTES: usize = $bytes;

            fn read(bytes: &[u8]) -> Self {
                let low = &bytes[bytes.len() - $bytes..];
                <$sort>::from_be_bytes(low.try_into().expect("as many as asked for"))
            }
        }
    };
}

number!(u8, 1);
number!(i32, 4);
number!(u32, 4);
number!(u64, 8);
number!(usize, 8);

/// The file, read up to some place of a call.
pub struct Calls<'a> {
    bytes: &'a [u8],
    /// The call, and the next of its slots and of its answers.
    call: &'a [u8],
    slot: usize,
    answer: usize,
    /// How many calls were begun.
    count: usize,
    /// The entry's.
    pub name: &'static str,
    /// The stored reply.
    pub reply: u8,
}

impl<'a> Calls<'a> {
    pub fn new(bytes: &'a [u8]) -> Self {
        Calls { bytes, call: &[], slot: 0, answer: 0, count: 0, name: "", reply: 0 }
    }

    /// The number of the next call's entry, or nothing after the last call.
    pub fn next(&mut self) -> Option<u8> {
        self.count += 1;
        let length = u32::read(self.first(4)) as usize;
        if length == 0 {
            return None;
        }
        self.call = self.first(length);
        self.reply = self.call[1];
        self.answer = u32::read(&self.call[2..6]) as usize;
        self.slot = 6;
        Some(self.call[0])
    }

    pub fn at_end(&self) -> bool {
        self.bytes.is_empty()
    }

    /// The file's next bytes.
    fn first(&mut self, count: usize) -> &'a [u8] {
        let (first, rest) =
            self.bytes.split_at_checked(count).expect("the file ends within a call");
        self.bytes = rest;
        first
    }

    /// The next slot.
    pub fn number<T: Number>(&mut self) -> T {
        self.slot += 8;
        T::read(&self.call[self.slot - 8..self.slot])
    }

    /// A length, of an area that is lent; where its answer stands follows from those before it.
    pub fn length(&mut self) -> usize {
        let _place: usize = self.number();
        self.number()
    }

    /// An area that is read.
    pub fn area<T: Number>(&mut self) -> Vec<T> {
        let (mut place, length): (usize, usize) = (self.number(), self.number());
        self.numbers(length, &mut place)
    }

    /// The same of an area of a declared length.
    pub fn array<T: Number, const N: usize>(&mut self) -> [T; N] {
        self.area().try_into().expect("as many as declared")
    }

    fn numbers<T: Number>(&self, length: usize, place: &mut usize) -> Vec<T> {
        let elements = &self.call[*place..*place + length * T::BYTES];
        *place += elements.len();
        elements.chunks(T::BYTES).map(T::read).collect()
    }

    /// What a lent area holds after the call: a refused one leaves it as it was.
    pub fn after<T: Number>(&mut self, length: usize) -> Vec<T> {
        let mut place = self.answer;
        let all = match self.reply {
            0 => self.numbers(length, &mut place),
            _ => vec![T::BEFORE; length],
        };
        self.answer = place;
        all
    }

    /// The same of an area of a declared length, which held `before`.
    pub fn array_after<T: Number, const N: usize>(&mut self, before: [T; N]) -> [T; N] {
        match self.reply {
            0 => self.after(N).try_into().expect("as many as declared"),
            _ => before,
        }
    }

    /// Holds what came out to what is stored.
    pub fn same<T: Debug + PartialEq + ?Sized>(&self, what: &str, got: &T, wanted: &T) {
        let Calls { count, name, .. } = self;
        assert!(got == wanted, "call {count}, {name}: {what}: {got:?}, wanted {wanted:?}");
    }

    /// Holds the entry's reply to the stored one.
    pub fn replied(&self, got: u8) {
        self.same("reply", &got, &self.reply);
    }

    /// Holds a safe function's answer to the stored one, which is `wanted` where the reply is 0.
    pub fn answered<T: Debug + PartialEq>(&self, got: Result<T, Refusal>, wanted: T) {
        let wanted = match self.reply {
            0 => Ok(wanted),
            number => Err(Refusal::from_number(number).expect("a number of the lists")),
        };
        self.same("answer", &got, &wanted);
    }
}

/// An area before the call.
pub fn lent<T: Number>(length: usize) -> Vec<T> {
    vec![T::BEFORE; length]
}
