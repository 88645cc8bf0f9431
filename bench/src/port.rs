//! The port, called through the exports of `exports/port_exports`. A second build of it can stand
//! beside the first: the same exports under another prefix.

use std::process::Command;

type OnBytes = unsafe extern "C" fn(*const u8, usize) -> u64;
type Repeated = unsafe extern "C" fn(*const u8, usize, u64) -> u64;
type OnPieces = unsafe extern "C" fn(*const u8, usize, *const u32, usize, u64) -> u64;
type OnPlaces =
    unsafe extern "C" fn(*const u8, usize, *const u32, usize, u64, *const u32, usize) -> u64;

/// What a static library of the port exports. In Rattle a `&[T]` crosses as a pointer and a length,
/// and an allocator takes no argument. Nothing compares the two declarations.
struct Exports {
    clone: Repeated,
    clone_atomic: Repeated,
    decode: OnBytes,
    decode_label: unsafe extern "C" fn(*const u8, usize, *const u8, usize) -> u64,
    from_units: unsafe extern "C" fn(*const u16, usize, u64) -> u64,
    input: OnBytes,
    join: OnPieces,
    keep: OnPieces,
    make: OnPieces,
    parse_by_class: OnBytes,
    parse_by_search: OnBytes,
    parts: OnBytes,
    pop_characters: OnBytes,
    pop_rope: OnPieces,
    push: OnPieces,
    push_rope: OnPieces,
    queue: Repeated,
    runs: OnBytes,
    send: unsafe extern "C" fn(*const u8, usize, u64, u64) -> u64,
    slice: Repeated,
    sub_ropes: OnPlaces,
    to_units: Repeated,
    tokenize: OnBytes,
    tokens: OnBytes,
    validate: OnBytes,
}

/// Links the exports under a prefix: `name(arguments)`.
#[cfg(feature = "port")]
macro_rules! link {
    ($prefix:literal: $($name:ident($($argument:ident: $kind:ty),*))*) => {{
        unsafe extern "C" {
            $(
                #[link_name = concat!($prefix, "_", stringify!($name))]
                fn $name($($argument: $kind),*) -> u64;
            )*
        }
        Exports { $($name),* }
    }};
}

#[cfg(feature = "port")]
macro_rules! exports {
    ($prefix:literal) => {
        link! {
            $prefix:
            clone(bytes: *const u8, length: usize, calls: u64)
            clone_atomic(bytes: *const u8, length: usize, calls: u64)
            decode(bytes: *const u8, length: usize)
            decode_label(bytes: *const u8, length: usize, label: *const u8, label_length: usize)
            from_units(units: *const u16, length: usize, times: u64)
            input(bytes: *const u8, length: usize)
            join(bytes: *const u8, length: usize, lengths: *const u32, count: usize, times: u64)
            keep(bytes: *const u8, length: usize, lengths: *const u32, count: usize, calls: u64)
            make(bytes: *const u8, length: usize, lengths: *const u32, count: usize, calls: u64)
            parse_by_class(bytes: *const u8, length: usize)
            parse_by_search(bytes: *const u8, length: usize)
            parts(bytes: *const u8, length: usize)
            pop_characters(bytes: *const u8, length: usize)
            pop_rope(bytes: *const u8, length: usize, lengths: *const u32, count: usize, all: u64)
            push(bytes: *const u8, length: usize, lengths: *const u32, count: usize, each: u64)
            push_rope(bytes: *const u8, length: usize, lengths: *const u32, count: usize, all: u64)
            queue(bytes: *const u8, length: usize, calls: u64)
            runs(bytes: *const u8, length: usize)
            send(bytes: *const u8, length: usize, count: u64, times: u64)
            slice(bytes: *const u8, length: usize, calls: u64)
            sub_ropes(bytes: *const u8, length: usize, lengths: *const u32, count: usize, all: u64,
                places: *const u32, parts: usize)
            to_units(bytes: *const u8, length: usize, times: u64)
            tokenize(bytes: *const u8, length: usize)
            tokens(bytes: *const u8, length: usize)
            validate(bytes: *const u8, length: usize)
        }
    };
}

/// A build of the port.
pub struct Port {
    pub name: &'static str,
    exports: Exports,
    /// The program that has threads, since a static library may start none.
    threads: String,
}

/// The builds that this program is linked with.
pub fn builds() -> Vec<Port> {
    vec![
        #[cfg(feature = "port")]
        Port::new("port", exports!("port"), "threads-port"),
        #[cfg(feature = "other")]
        Port::new("port, other", exports!("other"), "threads-other"),
    ]
}

#[cfg(feature = "port")]
impl Port {
    fn new(name: &'static str, exports: Exports, threads: &str) -> Port {
        let threads = concat!(env!("CARGO_MANIFEST_DIR"), "/target/port/").to_string() + threads;
        Port {
            name,
            exports,
            threads,
        }
    }
}

/// What the workloads call. Each answer is a sum over what was made, and 0 where the port refused a
/// call.
impl Port {
    pub fn clone_and_drop(&self, text: &str, calls: usize) -> u64 {
        repeated(self.exports.clone, text.as_bytes(), calls)
    }

    pub fn clone_and_drop_atomic(&self, text: &str, calls: usize) -> u64 {
        repeated(self.exports.clone_atomic, text.as_bytes(), calls)
    }

    pub fn decode(&self, bytes: &[u8]) -> u64 {
        on_bytes(self.exports.decode, bytes)
    }

    /// Decodes bytes in the encoding that has this label.
    pub fn decode_label(&self, bytes: &[u8], label: &str) -> u64 {
        // SAFETY: as in `on_bytes`, for two slices.
        unsafe {
            (self.exports.decode_label)(bytes.as_ptr(), bytes.len(), label.as_ptr(), label.len())
        }
    }

    /// Makes a text of the units, so many times.
    pub fn from_units(&self, units: &[u16], times: usize) -> u64 {
        // SAFETY: as in `on_bytes`.
        unsafe { (self.exports.from_units)(units.as_ptr(), units.len(), times as u64) }
    }

    pub fn input(&self, bytes: &[u8]) -> u64 {
        on_bytes(self.exports.input, bytes)
    }

    /// Cuts the text into slices of these lengths, once, and joins each 32 of them, so many times.
    pub fn join(&self, text: &str, lengths: &[u32], times: usize) -> u64 {
        on_pieces(self.exports.join, text, lengths, times)
    }

    pub fn keep(&self, words: &Words, calls: usize) -> u64 {
        on_pieces(self.exports.keep, &words.text, &words.lengths, calls)
    }

    pub fn make(&self, words: &Words, calls: usize) -> u64 {
        on_pieces(self.exports.make, &words.text, &words.lengths, calls)
    }

    pub fn parse_by_class(&self, bytes: &[u8]) -> u64 {
        on_bytes(self.exports.parse_by_class, bytes)
    }

    pub fn parse_by_search(&self, bytes: &[u8]) -> u64 {
        on_bytes(self.exports.parse_by_search, bytes)
    }

    pub fn parts(&self, bytes: &[u8]) -> u64 {
        on_bytes(self.exports.parts, bytes)
    }

    pub fn pop_characters(&self, text: &str) -> u64 {
        on_bytes(self.exports.pop_characters, text.as_bytes())
    }

    /// Makes a rope of so many words, and takes all its characters.
    pub fn pop_rope(&self, words: &Words, pieces: usize) -> u64 {
        on_pieces(self.exports.pop_rope, &words.text, &words.lengths, pieces)
    }

    /// Pushes the pieces of these lengths, `each` of them onto a text.
    pub fn push(&self, text: &str, lengths: &[u32], each: usize) -> u64 {
        on_pieces(self.exports.push, text, lengths, each)
    }

    /// Pushes texts of so many words onto a rope.
    pub fn push_rope(&self, words: &Words, pieces: usize) -> u64 {
        on_pieces(self.exports.push_rope, &words.text, &words.lengths, pieces)
    }

    pub fn queue(&self, source: &[u8], calls: usize) -> u64 {
        repeated(self.exports.queue, source, calls)
    }

    pub fn runs(&self, text: &str) -> u64 {
        on_bytes(self.exports.runs, text.as_bytes())
    }

    /// Sends so many texts and takes them back, twice, so many times.
    pub fn send(&self, text: &str, count: usize, times: usize) -> u64 {
        // SAFETY: as in `on_bytes`.
        unsafe { (self.exports.send)(text.as_ptr(), text.len(), count as u64, times as u64) }
    }

    pub fn slice_and_drop(&self, text: &str, calls: usize) -> u64 {
        repeated(self.exports.slice, text.as_bytes(), calls)
    }

    /// Makes a rope of so many words, and takes a part at each of these places.
    pub fn sub_ropes(&self, words: &Words, pieces: usize, places: &[u32]) -> u64 {
        // SAFETY: as in `on_bytes`, for three slices.
        unsafe {
            (self.exports.sub_ropes)(
                words.text.as_ptr(),
                words.text.len(),
                words.lengths.as_ptr(),
                words.lengths.len(),
                pieces as u64,
                places.as_ptr(),
                places.len(),
            )
        }
    }

    /// Takes the units of the text, so many times.
    pub fn to_units(&self, text: &str, times: usize) -> u64 {
        repeated(self.exports.to_units, text.as_bytes(), times)
    }

    pub fn tokenize(&self, bytes: &[u8]) -> u64 {
        on_bytes(self.exports.tokenize, bytes)
    }

    pub fn tokens(&self, text: &str) -> u64 {
        on_bytes(self.exports.tokens, text.as_bytes())
    }

    pub fn validate(&self, bytes: &[u8]) -> u64 {
        on_bytes(self.exports.validate, bytes)
    }

    /// The nanoseconds that the program with threads says that it took.
    pub fn in_threads(&self, mode: &str, count: usize, length: usize) -> u64 {
        let arguments = [mode.to_string(), count.to_string(), length.to_string()];
        let answer = Command::new(&self.threads).args(arguments).output();
        let answer = answer.expect("the program with threads runs").stdout;
        String::from_utf8_lossy(&answer)
            .trim()
            .parse()
            .expect("it prints nanoseconds")
    }
}

/// Words behind one another, and their lengths.
pub struct Words {
    text: String,
    lengths: Vec<u32>,
}

impl Words {
    pub fn new<S: AsRef<str>>(words: &[S]) -> Words {
        let words = || words.iter().map(AsRef::as_ref);
        Words {
            text: words().collect(),
            lengths: words().map(|it| it.len() as u32).collect(),
        }
    }
}

fn on_bytes(call: OnBytes, bytes: &[u8]) -> u64 {
    // SAFETY: the pointer and the length are those of a slice that is borrowed for the call, and
    // the exports that want UTF-8 are given the bytes of a `str`.
    unsafe { call(bytes.as_ptr(), bytes.len()) }
}

fn repeated(call: Repeated, bytes: &[u8], calls: usize) -> u64 {
    // SAFETY: as in `on_bytes`.
    unsafe { call(bytes.as_ptr(), bytes.len(), calls as u64) }
}

fn on_pieces(call: OnPieces, text: &str, lengths: &[u32], times: usize) -> u64 {
    // SAFETY: as in `on_bytes`, for two slices.
    unsafe {
        call(
            text.as_ptr(),
            text.len(),
            lengths.as_ptr(),
            lengths.len(),
            times as u64,
        )
    }
}
