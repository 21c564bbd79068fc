//! A table as text and read back, through the wrapper: the marked table, the
//! one with the longest listing, and texts that are no listings.

use herringcart::{LISTING_BYTES, NotListed, NotRead, TABLE_WORDS, check_table, list, read};

const MARKED: [u32; 12] = [
    0x0102_0100, 0x0001_0001, 0x0001_0002, 0x0100_0000, 0x2100_0000, 0x1010_2000, 0x030A_0005,
    0x0000_5000, 0x1000_00FF, 0x1838_0002, 0x4000_0002, 0x0000_1234,
];
/// As document 02 has it.
const LISTING: &str = "header 1 2 1 0\nheader 1 1\nheader 1 2\nport 0 0 0 1 0 0\n\
                       port 0 1 0 1 0 0\nnetwork 1 1 2 0\nnetwork 3 10 5\nexpression 0 0 5 0\n\
                       rule 1 0 0 0 0 255\nlist 1 1 7 0 2\nitem 4 0 2\nitem 0 0 4660\n";
const BYTE: u8 = 0x55;
const WORD: u32 = 0x5555_5555;

/// The listing in so many bytes. What is behind it, in a refusal all, must be as it
/// was.
fn listed(table: &[u32], room: usize) -> Result<String, NotListed> {
    let mut lines = vec![BYTE; room];
    let start = lines.as_ptr();
    let given = list(table, &mut lines).map(|listing| {
        assert!(room == 0 || listing.as_ptr() == start, "the front of what was lent");
        String::from_utf8(listing.to_vec()).expect("letters, digits, spaces and newlines")
    });
    let length = given.as_ref().map_or(0, String::len);
    assert!(lines[length..].iter().all(|&byte| byte == BYTE));
    given
}

/// The words in room for so many, likewise.
fn words(text: &str, room: usize) -> Result<Vec<u32>, NotRead> {
    let mut words = vec![WORD; room];
    let start = words.as_ptr();
    let given = read(text.as_bytes(), &mut words).map(|read| {
        assert!(read.as_ptr() == start, "the front of what was lent");
        read.to_vec()
    });
    let length = given.as_ref().map_or(0, Vec::len);
    assert!(words[length..].iter().all(|&word| word == WORD));
    given
}

#[test]
fn the_marked_table_there_and_back() {
    for room in [LISTING.len(), LISTING.len() + 1, LISTING_BYTES] {
        assert_eq!(listed(&MARKED, room), Ok(LISTING.into()));
    }
    for room in [MARKED.len(), MARKED.len() + 1, TABLE_WORDS] {
        assert_eq!(words(LISTING, room), Ok(MARKED.to_vec()));
    }
}

#[test]
fn too_little_room() {
    for room in 0..LISTING.len() {
        assert_eq!(listed(&MARKED, room), Err(NotListed::NoRoom));
    }
    for room in 0..MARKED.len() {
        assert_eq!(words(LISTING, room), Err(NotRead::NoRoom));
    }
}

#[test]
fn reasons_1_to_4_stand_before_the_room_and_later_ones_are_listed() {
    let with = |place: usize, word: u32| {
        let mut table = MARKED;
        table[place] = word;
        table
    };
    for room in [0, LISTING.len()] {
        assert_eq!(listed(&MARKED[..2], room), Err(NotListed::TooShort));
        assert_eq!(listed(&with(0, 0x0302_0100), room), Err(NotListed::WrongEdition));
        assert_eq!(listed(&with(1, 0x0001_0000), room), Err(NotListed::WrongCounts));
        assert_eq!(listed(&MARKED[..11], room), Err(NotListed::WrongLength));
    }
    let misfit = with(6, 0x000A_0005);
    assert_eq!(check_table(&misfit).reason, 5);
    let listing = LISTING.replace("network 3 10 5", "network 0 10 5");
    assert_eq!(listed(&misfit, LISTING.len()), Ok(listing.clone()));
    assert_eq!(words(&listing, 12), Ok(misfit.to_vec()));
}

#[test]
fn bad_lines_by_their_numbers() {
    let bad = |text: &str, line: usize| {
        for room in [0, 11, 12, 99] {
            assert_eq!(words(text, room), Err(NotRead::BadLine(line)), "{text:?}");
        }
    };
    bad("", 1);
    bad(&LISTING.replacen("1 0 0\n", "1 00 0\n", 1), 4);
    bad(&LISTING.replace("header 1 1\n", "header 1 1\r\n"), 2);
    bad(&LISTING.replace("rule", "list"), 9);
    bad(&LISTING.replace("item 0 0 4660\n", ""), 12);
    bad(LISTING.trim_end(), 12);
    bad(&format!("{LISTING}item 0 0 0\n"), 13);
    // A count that does not fit shows where another name stands.
    bad(&LISTING.replacen("1 2 1 0", "1 3 1 0", 1), 6);
}

#[test]
fn line_11_is_not_too_little_room() {
    let text = LISTING.replace("item 4 0 2", "item 16 0 2");
    assert_eq!(words(&text, 0), Err(NotRead::BadLine(11)));
    assert_eq!(words(LISTING, 0), Err(NotRead::NoRoom));
    assert_eq!((NotRead::BadLine(11).number(), NotRead::NoRoom.number()), (12, 11));
}

#[test]
fn refusals_have_the_documents_numbers() {
    let refusals = [
        NotListed::TooShort,
        NotListed::WrongEdition,
        NotListed::WrongCounts,
        NotListed::WrongLength,
        NotListed::NoRoom,
    ];
    assert_eq!(refusals.map(NotListed::number), [1, 2, 3, 4, 11]);
}

#[test]
fn the_rooms_that_are_always_enough() {
    assert_eq!((TABLE_WORDS, LISTING_BYTES), (3185, 149_695));
    let mut table = vec![0x0240_0820, 0x0200_0100, 0x00FF_07FF];
    table.resize(TABLE_WORDS, u32::MAX);
    let listing = listed(&table, LISTING_BYTES).expect("room enough");
    assert_eq!((listing.len(), listing.lines().count()), (71_508, TABLE_WORDS));
    assert_eq!(words(&listing, TABLE_WORDS), Ok(table));
}
