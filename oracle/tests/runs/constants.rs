//! The constants that no guest's traffic confirms, held against 01's words.

use crate::common::lines_of;
use arm_vgic::GITS_BASER_COUNT;

const UNIT: &str = "cf limit=65535 budget=64 frame=65536 processors=0,1\n";

#[test]
fn iidr_reads_43b_at_4_and_takes_4_bytes_only() {
    let lines = lines_of(&format!("{UNIT} rd 4 4\n rd 4 2\n rd 4 1\n rd 8 4"));
    assert_eq!(lines[1..4], ["RD 0 1083", "RD 2 0", "RD 2 0"]);
    assert_ne!(lines[4], "RD 0 1083");
}

/// Bytes of a 64-bit register take only an aligned 4 or 8; elsewhere a single
/// byte reads 0.
#[test]
fn there_are_eight_basers() {
    assert_eq!(GITS_BASER_COUNT, 8);
    for offset in 0x100..0x140 {
        assert_eq!(lines_of(&format!("{UNIT} rd {offset} 1"))[1], "RD 2 0");
    }
    for offset in [0xf8, 0xff, 0x140, 0x141, 0x147, 0x17f] {
        assert_eq!(lines_of(&format!("{UNIT} rd {offset} 1"))[1], "RD 0 0");
    }
}

#[test]
fn every_baser_holds_what_is_written_but_its_own_bits() {
    for number in 0..8 {
        let text = format!("{UNIT} wr baser{number} 8 0xf8e0ffffffffffff\n rd baser{number} 8");
        let own = [0x0107_u64 << 48, 0x0407 << 48, 0, 0, 0, 0, 0, 0][number];
        let value = 0xf8e0_ffff_ffff_ffff | own;
        assert_eq!(lines_of(&text)[2], format!("RD 0 {value}"));
    }
}
