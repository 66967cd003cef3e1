//! What a call returned and what its buffer then held, and how two of them may differ.

/// So many bytes before and after each lent buffer must stay as well.
const GUARD: usize = 32;

/// What one implementation returned, and what its buffer then held, guards included.
#[derive(Clone, PartialEq)]
pub struct Outcome {
    pub value: u64,
    bytes: Vec<u8>,
}

/// Something that was done with a lent record.
#[derive(Clone)]
pub enum Step {
    /// A bundle was loaded.
    Load(Vec<u8>),
    /// Calls were answered into so many bytes.
    Answer(Vec<u8>, usize),
    /// It was written into so many bytes.
    Write(usize),
}

/// A difference between the implementations, or from what must hold of both.
pub struct Difference {
    pub what: String,
    pub sides: [(&'static str, Outcome); 2],
    /// What was done with the lent record, if it is about one.
    pub steps: Vec<Step>,
}

/// A result, or the difference that ends the run.
pub type Checked<T> = Result<T, Box<Difference>>;

impl Outcome {
    /// Runs a call on a buffer of a length, filled with a pattern that no neighbour repeats.
    pub fn of(length: usize, fill: u8, call: impl FnOnce(&mut [u8]) -> u64) -> Outcome {
        let pattern = |place: usize| (place as u8).wrapping_mul(0x95) ^ fill;
        let mut bytes: Vec<u8> = (0..length + 2 * GUARD).map(pattern).collect();
        let value = call(&mut bytes[GUARD..GUARD + length]);
        Outcome { value, bytes }
    }

    /// The number in the value.
    pub fn number(&self) -> u64 {
        self.value >> 32
    }

    /// The lent buffer.
    pub fn buffer(&self) -> &[u8] {
        &self.bytes[GUARD..self.bytes.len() - GUARD]
    }

    /// The bytes around the buffer; the reference cannot reach its own.
    pub fn guards(&self) -> [&[u8]; 2] {
        let end = self.bytes.len() - GUARD;
        [&self.bytes[..GUARD], &self.bytes[end..]]
    }
}

impl Difference {
    /// Whether the buffers hold answers; if not, they hold text.
    pub fn of_answers(&self) -> bool {
        self.what.starts_with("replay") || self.what.starts_with("answer")
    }
}

/// The outcome of the reference if a condition holds, and a difference to report if not.
pub fn same_if(holds: bool, what: String, reference: Outcome, engine: Outcome) -> Checked<Outcome> {
    if holds {
        return Ok(reference);
    }
    Err(Box::new(Difference {
        what,
        sides: [("reference", reference), ("engine", engine)],
        steps: Vec::new(),
    }))
}
