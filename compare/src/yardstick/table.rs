//! A table's sections, found once a call, and the fields of its words.

pub const MODE: u32 = 0;
pub const TIMER: u32 = 2;

pub const NOT: u32 = 8;

pub const NO_LIST: u32 = 255;

/// How deep expressions and lists may nest.
pub const LEVELS: u8 = 7;

const HEADER: usize = 3;

/// A field by its lowest bit and its width.
#[inline]
pub const fn field(word: u32, low: u32, width: u32) -> u32 {
    (word >> low) & ((1 << width) - 1)
}

/// The owner of a network, source, rule or list, and the kind of an
/// expression, item or event.
#[inline]
pub const fn top(word: u32) -> u32 {
    word >> 28
}

#[inline]
pub const fn port_kind(port: u32) -> u32 {
    port >> 30
}

#[inline]
pub const fn port_owner(port: u32) -> u32 {
    field(port, 24, 4)
}

#[inline]
pub const fn is_deferred(port: u32) -> bool {
    field(port, 29, 1) == 1
}

/// The port of a network, a source or a condition.
#[inline]
pub const fn named_port(word: u32) -> u32 {
    field(word, 20, 8)
}

/// An operator's left and right argument; NOT's right is 0.
#[inline]
pub const fn arguments(operator: u32) -> [usize; 2] {
    [field(operator, 14, 14) as usize, field(operator, 0, 14) as usize]
}

#[inline]
pub const fn rule_expression(rule: u32) -> usize {
    field(rule, 16, 9) as usize
}

/// A rule's list for false and for true.
#[inline]
pub const fn rule_lists(rule: u32) -> [u32; 2] {
    [field(rule, 0, 8), field(rule, 8, 8)]
}

/// What an item names.
#[inline]
pub const fn named(item: u32) -> u32 {
    field(item, 16, 12)
}

/// Whether a set of ports or networks has this one. A set has none above 63.
#[inline]
pub const fn has(set: u64, number: u32) -> bool {
    (number < 64) & (set.wrapping_shr(number) & 1 == 1)
}

/// A shaped table's sections.
pub struct Table<'a> {
    pub ports: &'a [u32],
    pub networks: &'a [[u32; 2]],
    pub sources: &'a [u32],
    pub expressions: &'a [u32],
    pub rules: &'a [u32],
    pub lists: &'a [u32],
    pub items: &'a [u32],
}

/// The place of each section's first word.
pub struct Starts {
    pub ports: usize,
    pub networks: usize,
    pub sources: usize,
    pub expressions: usize,
    pub rules: usize,
    pub lists: usize,
    pub items: usize,
}

impl<'a> Table<'a> {
    /// The sections, or reason 1, 2, 3 or 4.
    #[inline]
    pub fn of(words: &'a [u32]) -> Result<Self, u32> {
        let [first, second, third, rest @ ..] = words else {
            return Err(1);
        };
        if first >> 24 != 1 {
            return Err(2);
        }
        let [p, n, s] = [16, 8, 0].map(|low| field(*first, low, 8) as usize);
        let [e, r] = [second >> 16, second & 0xFFFF].map(|count| count as usize);
        let [l, a] = [third >> 16, third & 0xFFFF].map(|count| count as usize);
        let few = (1..=64).contains(&p) && n <= 8 && s <= 32;
        let many = (1..=512).contains(&e) && (1..=256).contains(&r) && l <= 255 && a <= 2047;
        if !(few && many) {
            return Err(3);
        }
        if rest.len() != p + 2 * n + s + e + r + l + a {
            return Err(4);
        }
        let (ports, rest) = rest.split_at(p);
        let (networks, rest) = rest.split_at(2 * n);
        let (sources, rest) = rest.split_at(s);
        let (expressions, rest) = rest.split_at(e);
        let (rules, rest) = rest.split_at(r);
        let (lists, items) = rest.split_at(l);
        let (networks, _) = networks.as_chunks();
        Ok(Table { ports, networks, sources, expressions, rules, lists, items })
    }

    /// Only a refusal wants to know its place.
    #[cold]
    pub fn starts(&self) -> Starts {
        let ports = HEADER;
        let networks = ports + self.ports.len();
        let sources = networks + 2 * self.networks.len();
        let expressions = sources + self.sources.len();
        let rules = expressions + self.expressions.len();
        let lists = rules + self.rules.len();
        let items = lists + self.lists.len();
        Starts { ports, networks, sources, expressions, rules, lists, items }
    }

    /// A list's items.
    #[inline]
    pub fn items_of(&self, list: u32) -> &'a [u32] {
        let first = field(list, 8, 11) as usize;
        &self.items[first..first + field(list, 0, 8) as usize]
    }
}
