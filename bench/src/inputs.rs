//! The inputs, made from fixed seeds, so that each run and each machine has the same bytes.

/// Names of tags, of 1 to 7 bytes.
pub const TAGS: [&str; 20] = [
    "div", "span", "p", "a", "li", "ul", "td", "tr", "table", "h1", "h2", "em", "b", "i", "code",
    "pre", "section", "article", "nav", "strong",
];

const ATTRIBUTES: &str = "class id href title data-index style lang role";

const ENGLISH: &str = "\
    the of and to in a is that for it was on are as with his they at be this from have \
    or by one had not parser document element attribute character reference tokenizer \
    implementation encoding standard browser stylesheet whitespace";

const MULTILINGUAL: &str = "\
    naïve café Übergröße señor façade Ελληνικά κόσμος λόγος привет страница документ \
    кодировка العربية صفحة مرحبا עברית שלום दस्तावेज़ हिन्दी नमस्ते 日本語 文字列 漢字 ひらがな カタカナ \
    中文 字符 网页 한국어 문서 ภาษาไทย 🙂 🎉🎊 👩‍👩‍👧 the and of to html in";

const IDEOGRAPHS: &str = "\
    日本語 文字列 漢字 ひらがな カタカナ 中文 字符 网页 文档 元素 属性 编码 标准 浏览器 解析器";

const PAIRS: &str = "🙂 🎉 🎊 👩 💩 😀 𝔸 𠮷";

pub const FRENCH: &str = "\
    le de un être et à il avoir ne je son que se qui ce dans en du elle au pour pas sur plus par \
    mais avec tout nous même déjà très après où été état élève façade sous comme page texte";

pub const RUSSIAN: &str = "\
    и в не на быть он с что а по это она этот к но они мы весь который из у за ты от так о \
    страница документ кодировка текст слово время человек год дело";

pub const JAPANESE: &str = "\
    これは 文字列 です。 漢字 と ひらがな カタカナ が ある 文書 の 要素 、 属性 を 読む とき 、 \
    文字 の 符号化 方式 は 重要 である 。 日本語 ページ";

pub const SIMPLIFIED: &str = "\
    这是 一个 网页 ， 的 字符 编码 标准 。 浏览器 解析器 读取 文档 元素 和 属性 ， 我们 可以 \
    没有 时候 中国 人 大 来 上 说 了 不 在 有";

pub const TRADITIONAL: &str = "\
    這是 一個 網頁 ， 的 字元 編碼 標準 。 瀏覽器 解析器 讀取 文件 元素 和 屬性 ， 我們 可以 \
    沒有 時候 中國 人 大 來 上 說 了 不 在 有";

pub const KOREAN: &str = "\
    그리고 나는 있다 하는 것이 수 있는 문서 요소 속성 문자 부호화 표준 브라우저 한국어 페이지 를 은 는";

const MOSTLY_ENGLISH: &str = "the quick brown fox parser attribute café 中文";

/// Faults of the kinds that real pages have.
const FAULTS: [&[u8]; 8] = [
    b"\xFF",
    b"\x80",
    b"\xC3",
    b"\xE2\x82",
    b"\xF0\x9F\x98",
    b"\xC0\x80",
    b"\xED\xA0\x80",
    b"caf\xE9 d\xE9j\xE0",
];

/// How many pieces a rope of few has, and one of many.
pub const FEW_PIECES: usize = 8_192;
pub const MANY_PIECES: usize = 1_000_000;

/// How many bytes a part of a rope has, and how many parts are taken.
pub const PART: usize = 20;
const PARTS: usize = 1_000_000;

/// All inputs, made once.
pub struct Inputs {
    /// A page in ASCII.
    pub html: String,
    /// A page in many scripts.
    pub mixed: String,
    /// Characters of three bytes.
    pub ideographs: String,
    /// Characters of four bytes.
    pub pairs: String,
    /// `mixed` with a fault about each 250 bytes.
    pub broken: Vec<u8>,
    /// Bytes of which nearly each one is a fault.
    pub random: Vec<u8>,
    /// `html`, four times as long.
    pub large: String,
    /// `mixed`, four times as long.
    pub large_mixed: String,
    /// 10 KB in ASCII.
    pub ten_kilobytes: String,
    /// A megabyte, some words of which aren't in ASCII.
    pub megabyte: String,
    /// The lengths of pieces of 1 to 20 bytes, of `html` and of `mixed`.
    pub pushes: Vec<u32>,
    pub mixed_pushes: Vec<u32>,
    /// The lengths of pieces of 12 to 40 bytes, of `html`.
    pub joins: Vec<u32>,
    /// Words of 12 to 40 bytes, as of attributes and short text nodes.
    pub words: Vec<String>,
    /// Where parts begin, in a rope of few of the words and in one of many.
    pub few_places: Vec<u32>,
    pub many_places: Vec<u32>,
}

impl Inputs {
    /// The large ones have at least `size` bytes.
    pub fn new(size: usize) -> Inputs {
        let html = page_in_ascii(size);
        let mixed = multilingual(size);
        let words = long_words();
        Inputs {
            ideographs: row(size, 37, IDEOGRAPHS),
            pairs: row(size, 41, PAIRS),
            broken: broken(&mixed),
            random: random(size),
            large: page_in_ascii(4 * size),
            large_mixed: multilingual(4 * size),
            ten_kilobytes: page(10_240, 19, "the quick brown fox"),
            megabyte: page(1_000_000, 23, MOSTLY_ENGLISH),
            pushes: cut(&html, 1, 20, 11),
            mixed_pushes: cut(&mixed, 1, 20, 13),
            joins: cut(&html, 12, 40, 17),
            few_places: places(rope_length(&words, FEW_PIECES), 29),
            many_places: places(rope_length(&words, MANY_PIECES), 31),
            words,
            html,
            mixed,
        }
    }
}

fn long_words() -> Vec<String> {
    let letters = || "attribute-".chars().cycle();
    (0..20)
        .map(|at| letters().take(12 + at * 28 / 19).collect())
        .collect()
}

/// How many bytes a rope has of so many words, taken round about.
pub fn rope_length(words: &[String], count: usize) -> usize {
    words.iter().cycle().take(count).map(String::len).sum()
}

/// Places in a text of so many bytes, each of them with a part's bytes behind it.
fn places(length: usize, seed: u64) -> Vec<u32> {
    let mut random = Random::new(seed);
    let place = |_| random.below(length - PART + 1) as u32;
    (0..PARTS).map(place).collect()
}

fn page_in_ascii(size: usize) -> String {
    page(size, 0x1111_2222_3333_4444, ENGLISH)
}

fn multilingual(size: usize) -> String {
    page(size, 0x5555_6666_7777_8888, MULTILINGUAL)
}

/// Makes text of at least `size` bytes, as of a page: markup, indentation and runs of words.
fn page(size: usize, seed: u64, words: &str) -> String {
    let words: Vec<&str> = words.split(' ').collect();
    let mut random = Random::new(seed);
    let mut text = String::with_capacity(size + 4096);
    text.push_str("<!DOCTYPE html>\n<html>\n<body>\n");
    while text.len() < size {
        push_element(&mut text, &mut random, &words);
    }
    text
}

/// Words, one right behind the other, of at least `size` bytes.
pub fn row(size: usize, seed: u64, words: &str) -> String {
    separated(size, seed, words, "")
}

/// Words, each with a space after it, of at least `size` bytes.
pub fn prose(size: usize, seed: u64, words: &str) -> String {
    separated(size, seed, words, " ")
}

fn separated(size: usize, seed: u64, words: &str, separator: &str) -> String {
    let words: Vec<&str> = words.split(' ').collect();
    let mut random = Random::new(seed);
    let mut text = String::with_capacity(size + 64);
    while text.len() < size {
        text.push_str(random.pick(&words));
        text.push_str(separator);
    }
    text
}

fn push_element(text: &mut String, random: &mut Random, words: &[&str]) {
    let tag = random.pick(&TAGS);
    text.push_str(&"  ".repeat(random.below(5)));
    text.push('<');
    text.push_str(tag);
    let attributes: Vec<&str> = ATTRIBUTES.split(' ').collect();
    for _ in 0..random.below(3) {
        let (attribute, value) = (random.pick(&attributes), random.pick(words));
        text.push_str(&format!(" {attribute}=\"{value}\""));
    }
    text.push('>');
    for word in 0..random.below(24) {
        text.push_str(if word % 12 == 11 { "\n    " } else { " " });
        text.push_str(random.pick(words));
        text.push_str([" &amp;", ".", ","].get(random.below(20)).unwrap_or(&""));
    }
    text.push_str(&format!("</{tag}>\n"));
}

/// Puts a fault after each 1 to 500 bytes of the text.
fn broken(text: &str) -> Vec<u8> {
    let mut random = Random::new(0x9999_AAAA_BBBB_CCCC);
    let mut bytes = Vec::with_capacity(text.len() + text.len() / 32);
    let mut rest = text.as_bytes();
    while !rest.is_empty() {
        let (piece, after) = rest.split_at((1 + random.below(500)).min(rest.len()));
        bytes.extend_from_slice(piece);
        bytes.extend_from_slice(FAULTS[random.below(FAULTS.len())]);
        rest = after;
    }
    bytes
}

fn random(size: usize) -> Vec<u8> {
    let mut random = Random::new(0x7777_1234_5678_9ABC);
    let words = std::iter::repeat_with(|| random.next().to_le_bytes());
    words.flatten().take(size).collect()
}

/// Cuts the text into pieces of `low` to `high` bytes or a character's rest more, and gives their
/// lengths.
fn cut(text: &str, low: usize, high: usize, seed: u64) -> Vec<u32> {
    let mut random = Random::new(seed);
    let mut lengths = Vec::new();
    let mut at = 0;
    while at < text.len() {
        let end = text.ceil_char_boundary(at + low + random.below(high - low + 1));
        lengths.push((end - at) as u32);
        at = end;
    }
    lengths
}

/// A xorshift generator: enough for inputs, and the same everywhere.
struct Random(u64);

impl Random {
    fn new(seed: u64) -> Random {
        Random(seed | 1)
    }

    fn next(&mut self) -> u64 {
        self.0 ^= self.0 << 13;
        self.0 ^= self.0 >> 7;
        self.0 ^= self.0 << 17;
        self.0.wrapping_mul(0x2545_F491_4F6C_DD1D)
    }

    fn below(&mut self, limit: usize) -> usize {
        (self.next() >> 32) as usize % limit
    }

    fn pick<'a>(&mut self, words: &[&'a str]) -> &'a str {
        words[self.below(words.len())]
    }
}
