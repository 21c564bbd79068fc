//! Words and their fields, and where each thing of a table stands.

fn take(rest: &mut u32, width: u32) -> u32 {
    let field = *rest >> (32 - width);
    *rest = rest.checked_shl(width).unwrap_or(0);
    field
}

fn put(word: u32, width: u32, field: u32) -> u32 {
    (word << width) | (field & ((1 << width) - 1))
}

/// States a word's fields once, from the most significant bit, with their widths.
macro_rules! layout {
    ($($name:ident { $($field:ident: $width:literal),+ })+) => { $(
        #[derive(Clone, Copy, Default, PartialEq, Eq, Debug)]
        pub struct $name { $(pub $field: u32),+ }

        impl $name {
            /// Its fields' widths, in order.
            pub const WIDTHS: &'static [u32] = &[$($width),+];

            pub fn of(word: u32) -> Self {
                let mut rest = word;
                $name { $($field: take(&mut rest, $width)),+ }
            }

            pub fn word(self) -> u32 {
                let mut word = 0;
                $(word = put(word, $width, self.$field);)+
                word
            }
        }
    )+ };
}

layout! {
    Head { edition: 8, ports: 8, networks: 8, sources: 8 }
    Pair { high: 16, low: 16 }
    Port { kind: 2, deferred: 1, has_initial: 1, owner: 4, initial: 8, reload: 16 }
    Network { owner: 4, port: 8, threshold: 8, zero: 12 }
    Waits { l1: 8, l2: 8, e_ticks: 16 }
    Source { owner: 4, port: 8, timeout: 16, zero: 4 }
    Condition { kind: 4, port: 8, value: 8, zero: 12 }
    Operator { kind: 4, left: 14, right: 14 }
    Rule { owner: 4, first: 2, nested_only: 1, expression: 9, true_list: 8, false_list: 8 }
    List { owner: 4, triggered: 1, priority: 8, first: 11, count: 8 }
    ItemOne { kind: 4, a: 12, b: 16 }
    ItemTwo { kind: 4, abort: 1, a: 11, b: 16 }
    PortState { defined: 1, marked: 1, value: 8, zero: 6, remaining: 16 }
    RuleState { last: 2, zero: 30 }
    NetworkState { asked: 2, state: 3, counter: 8, heard: 1, zero: 2, remaining: 16 }
    SourceState { status: 2, zero: 14, remaining: 16 }
    Event { kind: 4, owner: 4, index: 8, value: 8, zero: 8 }
    TraceWord { kind: 4, owner: 4, a: 8, b: 16 }
}

/// The document's numbers, by the document's names.
pub mod edition {
    pub const ONE: u32 = 1;
    pub const TWO: u32 = 2;
}
pub mod port {
    pub const MODE: u32 = 0;
    pub const EVENT: u32 = 1;
    pub const TIMER: u32 = 2;
}
pub mod timer {
    pub const STOPPED: u32 = 0;
    pub const STARTED: u32 = 1;
    pub const EXPIRED: u32 = 2;
}
pub mod expression {
    pub const EQUAL: u32 = 0;
    pub const NOT_EQUAL: u32 = 1;
    pub const SET: u32 = 2;
    pub const CLEARED: u32 = 3;
    pub const AND: u32 = 4;
    pub const OR: u32 = 5;
    pub const XOR: u32 = 6;
    pub const NAND: u32 = 7;
    pub const NOT: u32 = 8;
    pub const AT_OR_ABOVE: u32 = 9;
}
pub mod item {
    pub const OUTSIDE_CALL: u32 = 0;
    pub const CLEAR_EVENT: u32 = 1;
    pub const START_TIMER: u32 = 2;
    pub const STOP_TIMER: u32 = 3;
    pub const NETWORK_REQUEST: u32 = 4;
    pub const LIST: u32 = 5;
    pub const RULE: u32 = 6;
}
pub mod mode {
    pub const NONE: u32 = 0;
    pub const SILENT: u32 = 1;
    pub const FULL: u32 = 2;
}
pub mod network {
    pub const NONE: u32 = 0;
    pub const SILENT: u32 = 1;
    pub const CHECK: u32 = 2;
    pub const FULL: u32 = 3;
    pub const RECOVER: u32 = 4;
}
pub mod source {
    pub const NONE: u32 = 0;
    pub const PENDING: u32 = 1;
    pub const VALIDATED: u32 = 2;
    pub const EXPIRED: u32 = 3;
}
pub mod event {
    pub const TICK: u32 = 0;
    pub const MODE_REQUEST: u32 = 1;
    pub const EVENT_REQUEST: u32 = 2;
    pub const WAKEUP: u32 = 3;
    pub const WAKEUP_VALID: u32 = 4;
    pub const BUS_OFF: u32 = 5;
    pub const WAKEUP_CLEAR: u32 = 6;
    pub const HEARD: u32 = 7;
}

/// How an outside call ended, as an outcome word says it.
pub mod outcome {
    pub const GOOD: u32 = 0;
    pub const FAILED: u32 = 1;
}

pub const PLATFORM: u32 = 0;
/// A rule's result before it has one.
pub const UNDEFINED: u32 = 2;
/// A rule's list where it has none.
pub const NO_LIST: u32 = 255;
/// Kind of the trace word that starts a list.
pub const LIST_START: u32 = 15;
/// How deep expressions and lists may nest.
pub const LEVELS: u32 = 7;
pub const HEADER: usize = 3;

/// An expression's fields depend on its kind: kinds there are not have a condition's.
#[derive(Clone, Copy, PartialEq, Eq, Debug)]
pub enum Expression {
    Condition(Condition),
    Operator(Operator),
}

impl Expression {
    pub fn of(word: u32) -> Self {
        let operator = Operator::of(word);
        if (expression::AND..=expression::NOT).contains(&operator.kind) {
            Expression::Operator(operator)
        } else {
            Expression::Condition(Condition::of(word))
        }
    }

    pub fn word(self) -> u32 {
        match self {
            Expression::Condition(condition) => condition.word(),
            Expression::Operator(operator) => operator.word(),
        }
    }

    /// The expressions it names. NOT's right is a zero field, not a name.
    pub fn arguments(self) -> impl Iterator<Item = usize> {
        let (left, right, named) = match self {
            Expression::Condition(_) => (0, 0, 0),
            Expression::Operator(o) if o.kind == expression::NOT => (o.left, 0, 1),
            Expression::Operator(o) => (o.left, o.right, 2),
        };
        [left as usize, right as usize].into_iter().take(named)
    }
}

/// An item of either edition. Q-9: in edition 2 "an item's a field becomes abort(1), a(11)"; in
/// edition 1 there is no abort.
#[derive(Clone, Copy, Default, PartialEq, Eq, Debug)]
pub struct Item {
    pub kind: u32,
    pub abort: u32,
    pub a: u32,
    pub b: u32,
}

impl Item {
    pub fn of(edition: u32, word: u32) -> Self {
        if edition == edition::TWO {
            let ItemTwo { kind, abort, a, b } = ItemTwo::of(word);
            Item { kind, abort, a, b }
        } else {
            let ItemOne { kind, a, b } = ItemOne::of(word);
            Item { kind, abort: 0, a, b }
        }
    }

    pub fn word(self, edition: u32) -> u32 {
        let Item { kind, abort, a, b } = self;
        if edition == edition::TWO {
            ItemTwo { kind, abort, a, b }.word()
        } else {
            ItemOne { kind, a, b }.word()
        }
    }

    /// An outside call that aborts nothing.
    pub fn call(code: u32) -> Self {
        Item { kind: item::OUTSIDE_CALL, b: code, ..Default::default() }
    }

    /// An item of kinds 1, 2, 3, 5 and 6.
    pub fn naming(kind: u32, a: u32) -> Self {
        Item { kind, a, ..Default::default() }
    }

    /// An item of kind 4.
    pub fn asking(network: u32, mode: u32) -> Self {
        Item { kind: item::NETWORK_REQUEST, a: network, b: mode, ..Default::default() }
    }
}

impl Rule {
    /// Its list for a result, if it has one.
    pub fn list_for(self, result: bool) -> Option<usize> {
        let list = if result { self.true_list } else { self.false_list };
        (list != NO_LIST).then_some(list as usize)
    }

    pub fn lists(self) -> impl Iterator<Item = usize> {
        [true, false].into_iter().filter_map(move |result| self.list_for(result))
    }
}

impl List {
    pub fn items(self) -> std::ops::Range<usize> {
        let first = self.first as usize;
        first..first + self.count as usize
    }
}

/// The parts of a table after its header, in their order.
#[derive(Clone, Copy, PartialEq, Eq, Debug)]
pub enum Section {
    Ports,
    Networks,
    Sources,
    Expressions,
    Rules,
    Lists,
    Items,
}

pub const SECTIONS: [Section; 7] = [
    Section::Ports,
    Section::Networks,
    Section::Sources,
    Section::Expressions,
    Section::Rules,
    Section::Lists,
    Section::Items,
];

impl Section {
    /// The least and the most of its things.
    pub const fn limits(self) -> (usize, usize) {
        match self {
            Section::Ports => (1, 64),
            Section::Networks => (0, 8),
            Section::Sources => (0, 32),
            Section::Expressions => (1, 512),
            Section::Rules => (1, 256),
            Section::Lists => (0, 255),
            Section::Items => (0, 2047),
        }
    }

    pub fn words_each(self) -> usize {
        if self == Section::Networks { 2 } else { 1 }
    }
}

/// A table's word, taken apart by where it stands.
#[derive(Clone, Copy, PartialEq, Eq, Debug)]
pub enum Word {
    Port(Port),
    Network(Network),
    Waits(Waits),
    Source(Source),
    Expression(Expression),
    Rule(Rule),
    List(List),
    Item(Item),
}

/// A table whose header has been read.
#[derive(Clone, Copy, Debug)]
pub struct Table<'a> {
    /// What its item words' fields are depends on it.
    pub edition: u32,
    words: &'a [u32],
    counts: [usize; 7],
    /// Where each section begins, and where the last ends.
    starts: [usize; 8],
}

impl<'a> Table<'a> {
    /// None where there is no whole header.
    pub fn of(words: &'a [u32]) -> Option<Self> {
        let [first, second, third, ..] = *words else {
            return None;
        };
        let (head, second, third) = (Head::of(first), Pair::of(second), Pair::of(third));
        let counts = [
            head.ports,
            head.networks,
            head.sources,
            second.high,
            second.low,
            third.high,
            third.low,
        ];
        let counts = counts.map(|count| count as usize);
        let mut starts = [HEADER; 8];
        for section in SECTIONS {
            let at = section as usize;
            starts[at + 1] = starts[at] + counts[at] * section.words_each();
        }
        Some(Table { edition: head.edition, words, counts, starts })
    }

    pub fn count(&self, section: Section) -> usize {
        self.counts[section as usize]
    }

    /// The place of the first word of a thing.
    pub fn place(&self, section: Section, number: usize) -> usize {
        self.starts[section as usize] + number * section.words_each()
    }

    /// The length its header states.
    pub fn stated_length(&self) -> usize {
        self.starts[SECTIONS.len()]
    }

    /// The section that a place past the header is in, and the number of the word there among a
    /// thing's words; None past the length that the header states.
    pub fn section_at(&self, place: usize) -> Option<(Section, usize)> {
        let section = SECTIONS.into_iter().find(|&s| place < self.starts[s as usize + 1])?;
        Some((section, (place - self.starts[section as usize]) % section.words_each()))
    }

    fn word(&self, section: Section, number: usize) -> u32 {
        self.words[self.place(section, number)]
    }

    pub fn port(&self, number: usize) -> Port {
        Port::of(self.word(Section::Ports, number))
    }

    pub fn network(&self, number: usize) -> Network {
        Network::of(self.word(Section::Networks, number))
    }

    pub fn waits(&self, number: usize) -> Waits {
        Waits::of(self.words[self.place(Section::Networks, number) + 1])
    }

    pub fn source(&self, number: usize) -> Source {
        Source::of(self.word(Section::Sources, number))
    }

    pub fn expression(&self, number: usize) -> Expression {
        Expression::of(self.word(Section::Expressions, number))
    }

    pub fn rule(&self, number: usize) -> Rule {
        Rule::of(self.word(Section::Rules, number))
    }

    pub fn list(&self, number: usize) -> List {
        List::of(self.word(Section::Lists, number))
    }

    pub fn item(&self, number: usize) -> Item {
        Item::of(self.edition, self.word(Section::Items, number))
    }

    /// The ports that networks, then sources, have as their own.
    pub fn thing_ports(&self) -> Vec<u32> {
        let networks = (0..self.count(Section::Networks)).map(|n| self.network(n).port);
        let sources = (0..self.count(Section::Sources)).map(|s| self.source(s).port);
        networks.chain(sources).collect()
    }

    /// Every word past the header in the order of its place, with the number
    /// of the thing it belongs to.
    pub fn words(&self) -> impl Iterator<Item = (usize, Word)> + use<> {
        // Every call checks its table anew, so this is where most time goes.
        let mut words = Vec::with_capacity(self.stated_length());
        for section in SECTIONS {
            for number in 0..self.count(section) {
                words.push((number, self.first_word(section, number)));
                if section == Section::Networks {
                    words.push((number, Word::Waits(self.waits(number))));
                }
            }
        }
        words.into_iter()
    }

    fn first_word(&self, section: Section, number: usize) -> Word {
        match section {
            Section::Ports => Word::Port(self.port(number)),
            Section::Networks => Word::Network(self.network(number)),
            Section::Sources => Word::Source(self.source(number)),
            Section::Expressions => Word::Expression(self.expression(number)),
            Section::Rules => Word::Rule(self.rule(number)),
            Section::Lists => Word::List(self.list(number)),
            Section::Items => Word::Item(self.item(number)),
        }
    }
}
