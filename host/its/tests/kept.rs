//! Words that a host kept: of this layout, of those before it, and any others.

use its::{Action, DeviceId, EventId, Its, LAYOUT, Lpi, Processor};
use its::{Profile, Refusal, Settings, WORDS, Window, WriteRefused};

const CTLR: u64 = 0x00;
const CREADR: u64 = 0x90;
const SEAT: DeviceId = DeviceId(7);
const TOUCH: EventId = EventId(2);
const PROCESSORS: [Processor; 2] = [Processor(0), Processor(3)];

/// An enabled unit as it was kept when no number said which layout it has: limit,
/// budget, frame, two processors; device 7 with 4 event bits, collection 1 at
/// processor 3, and the device's event 2 as LPI 8200 of this collection.
fn of_no_layout() -> [u64; WORDS] {
    let mut words = [0; WORDS];
    words[..5].copy_from_slice(&[65_535, 64, 65_536, 2, 0x0003_0000]);
    // CTLR, CBASER, CREADR, CWRITER, and two of the eight BASER.
    words[20..24].copy_from_slice(&[1, 0x8000_0000_0004_0000, 96, 96]);
    words[24..26].copy_from_slice(&[0x0107_0000_0000_0000, 0x0407_0000_0000_0000]);
    words[32] = 0x8000_0004_0000_0007;
    words[64] = 0x8000_0000_0003_0001;
    words[96] = 0x0000_0007_0000_0002;
    words[352] = 0x8000_0001_0000_2008;
    words
}

/// The same unit in this layout: registers and tables have kept their places.
fn of_this_layout() -> [u64; WORDS] {
    let mut words = of_no_layout();
    words[..7].copy_from_slice(&[LAYOUT, 65_535, 64, 65_536, 0, 2, 0x0003_0000]);
    words
}

/// Every call answers 1, and all words stay as they are.
fn is_no_unit(words: [u64; WORDS]) -> Its {
    let mut its = Its::of_words(words);
    for (offset, width) in [(CTLR, 4), (CREADR, 8), (0x91, 3)] {
        assert_eq!(its.read(offset, width), Err(Refusal::Unsound));
    }
    assert_eq!(its.translate(SEAT, TOUCH), Err(Refusal::Unsound));
    let refused = WriteRefused {
        refusal: Refusal::Unsound,
        opcode: 0,
        offset: 0,
        done: 0,
        actions: 0,
    };
    for (offset, width, value) in [
        (CTLR, 4, 0),
        (CTLR, 4, 1),
        (0x80, 8, 0x5_0000),
        (0x88, 8, 0),
        (0x88, 8, 128),
        (0x100, 8, u64::MAX),
        (0x91, 3, 1),
    ] {
        let window = Window {
            address: 0x4_0000,
            bytes: &[5; 4_096],
        };
        let mut row = [Action::default(); 1024];
        let (actions, answer) = its.write(window, &mut row, offset, width, value);
        assert_eq!((actions, answer), (&[][..], Err(refused)));
        assert_eq!(row, [Action::default(); 1024]);
    }
    assert!(*its.words() == words);
    its
}

#[test]
fn words_of_this_layout_are_the_unit() {
    let its = Its::of_words(of_this_layout());
    let delivery = its.translate(SEAT, TOUCH).unwrap();
    assert_eq!(
        (delivery.lpi, delivery.processor),
        (Lpi(8_200), Processor(3))
    );
    assert_eq!(its.read(CREADR, 8), Ok(96));
}

#[test]
fn words_of_the_layouts_before_are_none_until_they_are_configured() {
    // Layout 1 had no Stalled; its other numbers stood where they stand now.
    let mut of_layout_1 = of_this_layout();
    of_layout_1[0] = 1;
    for words in [of_no_layout(), of_layout_1] {
        let mut its = is_no_unit(words);
        let settings = Settings::new(65_535, 64, 65_536).profile(Profile::Strict);
        assert_eq!(its.configure(&settings, &PROCESSORS), Ok(()));
        // A fresh unit: nothing of the old one is left.
        assert_eq!(its.read(CTLR, 4), Ok(0x8000_0000));
        assert_eq!(its.translate(SEAT, TOUCH), Err(Refusal::ResourceNotFound));
        assert_eq!(its.words()[..6], [LAYOUT, 65_535, 64, 65_536, 1, 2]);
    }
}

/// Stalled is the lowest bit of the word before CTLR's. Base neither shows it nor
/// heeds it nor writes it, whatever stands there.
#[test]
fn stalled_is_kept() {
    for (profile, word, shown) in [(0, 1, 96), (0, 2, 96), (1, 0, 96), (1, 1, 97), (1, 2, 96)] {
        let mut words = of_this_layout();
        words[4] = profile;
        words[19] = word;
        let mut its = Its::of_words(words);
        assert_eq!(its.read(CREADR, 8), Ok(shown));
        let window = Window {
            address: 0x4_0000,
            bytes: &[],
        };
        // The next command is not in the window: a unit that runs its queue
        // refuses it with 6.
        let mut row = [Action::default(); 64];
        let ran = its.write(window, &mut row, 0x88, 8, 128).1.is_err();
        assert_eq!(ran, shown == 96);
        assert_eq!(its.words()[19] % 2, if profile == 1 { 1 } else { word % 2 });
    }
}

#[test]
fn words_under_another_number_are_none() {
    for layout in [0, 1, 3, 255, 256, 258, 65_535, 1 << 32 | 2, 1 << 63 | 2] {
        let mut words = of_this_layout();
        words[0] = layout;
        is_no_unit(words);
    }
    is_no_unit([0; WORDS]);
    is_no_unit([u64::MAX; WORDS]);
    is_no_unit([0xa5a5_a5a5_a5a5_a5a5; WORDS]);
}

#[test]
fn a_profile_that_the_unit_does_not_know() {
    let mut words = of_this_layout();
    words[4] = 2;
    let its = Its::of_words(words);
    assert_eq!(its.read(CTLR, 4), Err(Refusal::Unsound));
    assert_eq!(its.translate(SEAT, TOUCH), Err(Refusal::Unsound));
}
