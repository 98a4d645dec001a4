//! Every mnemonic with its operands, against words written out by hand.

mod common;

use common::{around, words};

/// One line of a segment must make this word.
fn makes(line: &str, word: u32) {
    assert_eq!(words(&around(line), 0), [word], "{line}");
}

#[test]
fn every_mnemonic() {
    makes("HALT", 0x0000_0000);
    makes("LOAD b|3", 0x0100_2003);
    makes("STORE a|5", 0x0200_0005);
    makes("ADD s|7", 0x0300_1007);
    makes("SUB p3|1", 0x0400_3001);
    makes("EPP a,b|9", 0x0500_2009);
    makes("SPP p7,p6|2", 0x0607_6002);
    makes("JUMP p4|0", 0x0700_4000);
    makes("CALL p3|0", 0x0800_3000);
    makes("RET a|1", 0x0900_0001);
    makes("JZ p5|2", 0x0A00_5002);
    makes("JM b|4", 0x0B00_2004);
    makes("LIT 5", 0x0C00_0005);
}

#[test]
fn indirect_addresses() {
    makes("LOAD b|3,*", 0x0100_A003);
    makes("LOAD a|3,*", 0x0100_8003);
    makes("STORE a|5,*", 0x0200_8005);
    makes("ADD s|7,*", 0x0300_9007);
    makes("SUB p3|1,*", 0x0400_B001);
    makes("EPP s,a|2,*", 0x0501_8002);
    makes("SPP p7,p6|2,*", 0x0607_E002);
    makes("JUMP p4|0,*", 0x0700_C000);
    makes("CALL b|0,*", 0x0800_A000);
    makes("RET a|1,*", 0x0900_8001);
    makes("JZ p5|2,*", 0x0A00_D002);
    makes("JM b|4,*", 0x0B00_A004);
}

#[test]
fn every_register() {
    let names = ["p0", "p1", "p2", "p3", "p4", "p5", "p6", "p7"];
    for (number, name) in (0u32..).zip(names) {
        makes(&format!("LOAD {name}|0"), 0x0100_0000 + 0x1000 * number);
        makes(&format!("EPP {name},a|0"), 0x0500_0000 + 0x1_0000 * number);
    }
    makes("EPP a,a|0", 0x0500_0000);
    makes("EPP s,s|0", 0x0501_1000);
    makes("EPP b,b|0", 0x0502_2000);
}

#[test]
fn offsets() {
    makes("LIT -1", 0x0C00_0FFF);
    makes("LIT -2048", 0x0C00_0800);
    makes("LIT 2047", 0x0C00_07FF);
    makes("LIT 0x7F", 0x0C00_007F);
    makes("LOAD b|-1", 0x0100_2FFF);
    makes("LOAD b|-2048,*", 0x0100_A800);
    makes("LOAD b|2047", 0x0100_27FF);
}

#[test]
fn labels_as_offsets() {
    let text = around("HALT\nx: LOAD b|x\nLOAD b|y,*\nEPP a,b|y+2\nLOAD b|y-4\nLIT y\ny: HALT");
    let expected = [
        0,
        0x0100_2001,
        0x0100_A006,
        0x0500_2008,
        0x0100_2002,
        0x0C00_0006,
        0,
    ];
    assert_eq!(words(&text, 0), expected);
}

#[test]
fn spaces_tabs_and_comments() {
    makes(
        "  EPP\ta , b | 0x9 , *   # a comment: 1 | % \u{e9}",
        0x0500_A009,
    );
    makes("x :LOAD b|3#", 0x0100_2003);
    makes("\r\n# nothing\r\n\r\nHALT\r", 0);
}
