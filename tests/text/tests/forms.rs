//! Data words, pointer words, mode words, lists, segments, domains, start.

mod common;

use common::{around, read, words, REST};

#[test]
fn data_words() {
    let text = around("word 20\nword 1 -1 0xFFFFFFFF 4294967295\nword -2147483648 0xab\nzeros 3");
    let all = u32::MAX;
    let expected = [20, 1, all, all, all, 0x8000_0000, 0xAB, 0, 0, 0];
    assert_eq!(words(&text, 0), expected);
}

#[test]
fn pointer_words() {
    let text = "segment first
            pointer second|x
            tagged second|x
            pointer second|x+1
            tagged first|4095
            pointer first|end
        end:
        segment second
            zeros 5
        x:  word 7";
    let text = format!("{text}\nsegment code\nHALT{REST}");
    let expected = [0x1005, 0x8000_1005, 0x1006, 0x8000_0FFF, 5];
    assert_eq!(words(&text, 0), expected);
}

#[test]
fn mode_words() {
    let text = around("mode 4 RW\nmode 1 R\nmode 4096 W\nmode 0x10 WR");
    let expected = [0xC000_0004, 0x4000_0001, 0x8000_1000, 0xC000_0010];
    assert_eq!(words(&text, 0), expected);
}

#[test]
fn argument_lists() {
    let text = around(
        "back: HALT
        list return code|back
        l: list return code|l
        # a comment and a label may stand between
        first:
        argument code|first 2 R
        argument tagged code|3 4093 RW
        second: argument unset 1 W
        pointer code|second
        list return code|0",
    );
    let expected = [
        vec![0],
        vec![0, 0, 0],
        vec![3, 4, 0],
        vec![7, 0x4000_0002],
        vec![0x8000_0003, 0xC000_0FFD],
        vec![0, 0x8000_0001],
        vec![11],
        vec![0, 0, 0],
    ];
    assert_eq!(words(&text, 0), expected.concat());
}

#[test]
fn eight_arguments() {
    let text = around(&format!(
        "list return code|0{}",
        "\nargument code|1 1 R".repeat(8)
    ));
    let words = words(&text, 0);
    assert_eq!((words[0], words.len()), (8, 19));
}

#[test]
fn segments_named_as_words_of_the_form() {
    let text = "segment tagged
        list return tagged|0
        argument tagged|1 1 R
        argument tagged tagged|1 1 R
        argument unset|2 1 R
        segment unset
        word: word 5
        pointer unset|word";
    let text = format!("{text}\nsegment code\nHALT{REST}");
    let mode = 0x4000_0001;
    let expected = [3, 0, 0, 1, mode, 0x8000_0001, mode, 0x1002, mode];
    assert_eq!(words(&text, 0), expected);
    assert_eq!(words(&text, 1), [5, 0x1000]);
}

#[test]
fn gates_domains_and_start() {
    let text = "start second code|10
        domain first stack data
        rights data GEWR
        domain second stack code
        rights code R
        rights data WE
        domain third stack data
        segment data
        gates 2 into second
        word 1 2
        segment code
        HALT
        gates 0 into third";
    let (machine, _) = read(&text::assemble(text).unwrap());
    assert_eq!((machine.segment_count, machine.domain_count), (2, 3));
    let rights = machine
        .domains
        .map(|row| (row.stack_segment, row.rights[0], row.rights[1]));
    assert_eq!(rights[..3], [(0, 15, 0), (1, 6, 1), (0, 0, 0)]);
    let gates = machine
        .segments
        .map(|row| (row.gate_count, row.gate_domain));
    assert_eq!(gates[..2], [(2, 1), (0, 2)]);
    assert_eq!(machine.start_domain, 1);
    assert_eq!((machine.start.segment, machine.start.word), (1, 10));
}

#[test]
fn the_largest_image() {
    let mut text = String::from("start d0 s0|4095\nsegment s0\nzeros 4096\n");
    for number in 1..16 {
        let count = if number == 1 { 4082 } else { 1 };
        text.push_str(&format!("segment s{number}\nzeros {count}\n"));
    }
    for number in 0..8 {
        text.push_str(&format!("domain d{number} stack s15\n"));
    }
    let image = text::assemble(&text).unwrap();
    assert_eq!(image.len(), reference::LONGEST_IMAGE);
    read(&image);
}
