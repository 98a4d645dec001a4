//! Every reason for which a text is refused, with its line.

mod common;

use common::around;

/// A text must be refused with exactly this.
fn refused(text: &str, expected: &str) {
    let error = text::assemble(text).expect_err(text);
    assert_eq!(error.to_string(), expected, "{text}");
}

/// A line of a segment must be refused so; it is line 2 of the text.
fn line_refused(line: &str, reason: &str) {
    refused(&around(line), &format!("line 2: {reason}"));
}

#[test]
fn characters_and_numbers() {
    line_refused("LOAD b|3;", "';' means nothing here");
    line_refused("\u{1}", "'\\u{1}' means nothing here");
    line_refused("caf\u{e9}: HALT", "'\u{e9}' means nothing here");
    line_refused("word 12ab", "'12ab' is not a number");
    line_refused("word 0x", "'0x' is not a number");
    line_refused("word 0xG", "'0xG' is not a number");
    line_refused("word 4294967296", "'4294967296' does not fit in 32 bits");
    line_refused("word 0x100000000", "'0x100000000' does not fit in 32 bits");
    line_refused("word -2147483649", "'-2147483649' does not fit in 32 bits");
}

#[test]
fn words_that_mean_nothing() {
    line_refused("MOVE a|1", "unknown word 'MOVE'");
    line_refused(
        "load a|1",
        "unknown word 'load': the instruction is written LOAD",
    );
    line_refused("x: y: HALT", "unknown word 'y'");
    line_refused(
        "5",
        "expected an instruction or a word of the text form, found '5'",
    );
    line_refused(
        ": HALT",
        "expected an instruction or a word of the text form, found ':'",
    );
}

#[test]
fn operands() {
    line_refused("HALT 1", "expected the end of the line, found '1'");
    line_refused("LOAD", "expected a register, found the end of the line");
    line_refused("LOAD 3", "expected a register, found '3'");
    line_refused("LOAD b", "expected '|', found the end of the line");
    line_refused(
        "LOAD b|",
        "expected a number or a label, found the end of the line",
    );
    line_refused("LOAD b|*", "expected a number or a label, found '*'");
    line_refused("LOAD b|-x", "expected a number, found 'x'");
    line_refused("LOAD b|x+y", "expected a number, found 'y'");
    line_refused("LOAD b|x-", "expected a number, found the end of the line");
    line_refused("LOAD b|3,", "expected '*', found the end of the line");
    line_refused("LOAD b|3,* 1", "expected the end of the line, found '1'");
    line_refused("LOAD a,b|3", "expected '|', found ','");
    line_refused("EPP b|3", "expected ',', found '|'");
    line_refused("EPP 1,b|3", "expected a register, found '1'");
    line_refused("LIT", "expected a number, found the end of the line");
    line_refused("LIT 1,*", "expected the end of the line, found ','");
    for name in ["p8", "p", "A", "p00", "x"] {
        let reason = format!("'{name}' is not a register: a, s, b, p0 to p7");
        line_refused(&format!("LOAD {name}|0"), &reason);
        line_refused(&format!("EPP {name},a|0"), &reason);
    }
}

#[test]
fn offsets_and_word_numbers() {
    let offset = "the offset must be -2048 to 2047, not";
    line_refused("LOAD b|2048", &format!("{offset} 2048"));
    line_refused("LOAD b|-2049", &format!("{offset} -2049"));
    line_refused("LIT 4095", &format!("{offset} 4095"));
    line_refused("x: LOAD b|x+4294967295", &format!("{offset} 4294967295"));
    line_refused("x: LOAD b|x-4294967295", &format!("{offset} -4294967295"));
    let far = around("LOAD b|x\nzeros 2047\nx: HALT");
    refused(&far, &format!("line 2: {offset} 2048"));
    let word = "the word number must be 0 to 4095, not";
    line_refused("pointer code|4096", &format!("{word} 4096"));
    line_refused("tagged code|-1", &format!("{word} -1"));
    line_refused("x: pointer code|x-1", &format!("{word} -1"));
    let end = around("zeros 4095\npointer code|x\nx:");
    refused(&end, &format!("line 3: {word} 4096"));
    line_refused("pointer code", "expected '|', found the end of the line");
    line_refused("pointer 1|2", "expected a segment, found '1'");
}

#[test]
fn data_and_modes() {
    line_refused("word", "expected a number, found the end of the line");
    line_refused("word x", "expected a number, found 'x'");
    line_refused("word 1 -", "expected a number, found the end of the line");
    line_refused("word 1, 2", "expected a number, found ','");
    line_refused("zeros 0", "zeros must be 1 to 4096, not 0");
    line_refused("zeros 4097", "zeros must be 1 to 4096, not 4097");
    line_refused("mode 0 R", "the length must be 1 to 4096, not 0");
    line_refused("mode 4097 R", "the length must be 1 to 4096, not 4097");
    line_refused("mode 1", "expected flags, found the end of the line");
    for letters in ["E", "RR", "rw", "RWG"] {
        let reason = format!("'{letters}' is not a choice of the flags RW");
        line_refused(&format!("mode 1 {letters}"), &reason);
    }
}

#[test]
fn lists_and_arguments() {
    let alone = "an argument must follow a 'list' line or another argument";
    line_refused("argument code|0 1 R", alone);
    let apart = around("list return code|0\nHALT\nargument code|0 1 R");
    refused(&apart, &format!("line 4: {alone}"));
    let other = around("list return code|0\nsegment more\nargument code|0 1 R");
    refused(&other, &format!("line 4: {alone}"));
    let nine = "list return code|0".to_string() + &"\nargument code|0 1 R".repeat(9);
    refused(&around(&nine), "line 11: more than 8 arguments in a list");
    let long = around("list return code|0\nargument code|4000 97 R");
    refused(&long, "line 3: 97 words from word 4000 pass word 4095");
    line_refused("list code|0", "expected 'return', found 'code'");
    line_refused(
        "list return",
        "expected a segment, found the end of the line",
    );
    for (text, reason) in [
        ("argument", "expected a segment, found the end of the line"),
        ("argument 5 1 R", "expected a segment, found '5'"),
        ("argument x 1 R", "expected '|', found '1'"),
        ("argument tagged 1 R", "expected a segment, found '1'"),
        ("argument unset R", "expected a number, found 'R'"),
        (
            "argument code|0 1",
            "expected flags, found the end of the line",
        ),
        (
            "argument code|0 1 R W",
            "expected the end of the line, found 'W'",
        ),
    ] {
        let text = around(&format!("list return code|0\n{text}"));
        refused(&text, &format!("line 3: {reason}"));
    }
}

#[test]
fn names_that_are_missing_or_given_twice() {
    line_refused("LOAD b|x", "no label 'x'");
    line_refused("pointer x|0", "no segment 'x'");
    line_refused("list return x|0", "no segment 'x'");
    let text = around("HALT\nsegment code");
    refused(&text, "line 3: segment 'code' is already on line 1");
    let text = around("x: HALT\nx: HALT");
    refused(&text, "line 3: label 'x' is already on line 2");
    let text = around("HALT\nsegment more\nx: HALT\npointer code|x");
    refused(&text, "line 5: label 'x' is in segment 'more'");
}

#[test]
fn sections() {
    let no_segment = "no segment is open here: a 'segment' line comes first";
    refused("HALT", &format!("line 1: {no_segment}"));
    refused("\nx:", &format!("line 2: {no_segment}"));
    refused("gates 1 into d", &format!("line 1: {no_segment}"));
    refused("list return x|0", &format!("line 1: {no_segment}"));
    refused("domain d stack s\nword 1", &format!("line 2: {no_segment}"));
    let no_domain = "no domain is open here: a 'domain' line comes first";
    refused("rights s R", &format!("line 1: {no_domain}"));
    line_refused("rights s R", no_domain);
    for line in [
        "segment x",
        "gates 1 into d",
        "domain d stack x",
        "start d x|0",
    ] {
        line_refused(&format!("x: {line}"), "a label must stand before a word");
    }
    line_refused(
        "segment",
        "expected the segment's name, found the end of the line",
    );
    line_refused("segment 5", "expected the segment's name, found '5'");
    line_refused("segment x y", "expected the end of the line, found 'y'");
}

#[test]
fn gates_domains_and_start() {
    line_refused("gates into d", "expected a number, found 'into'");
    line_refused("gates 1 d", "expected 'into', found 'd'");
    line_refused(
        "gates 1 into",
        "expected a domain, found the end of the line",
    );
    refused(&around("gates 1 into x\nHALT"), "line 2: no domain 'x'");
    let text = around("gates 2 into only\nHALT");
    refused(
        &text,
        "line 2: segment 'code' has fewer words (1) than gates (2)",
    );
    let text = around("gates 1 into only\nHALT\ngates 1 into only");
    refused(&text, "line 4: segment 'code' has gates on line 2 already");
    line_refused(
        "domain",
        "expected the domain's name, found the end of the line",
    );
    line_refused("domain d", "expected 'stack', found the end of the line");
    line_refused(
        "domain d stack",
        "expected a segment, found the end of the line",
    );
    let begin = "segment code\nHALT\n";
    for (lines, reason) in [
        ("domain d stack x\nstart d code|0", "line 3: no segment 'x'"),
        (
            "domain d stack code\nrights x R\nstart d code|0",
            "line 4: no segment 'x'",
        ),
        (
            "domain d stack code\nrights",
            "line 4: expected a segment, found the end of the line",
        ),
        (
            "domain d stack code\nrights code",
            "line 4: expected flags, found the end of the line",
        ),
        (
            "domain d stack code\nrights code 5",
            "line 4: expected flags, found '5'",
        ),
        (
            "domain d stack code\nrights code RX",
            "line 4: 'RX' is not a choice of the flags RWEG",
        ),
        (
            "domain d stack code\nrights code R\nrights code W",
            "line 5: domain 'd' has rights on 'code' on line 4 already",
        ),
        (
            "domain d stack code\ndomain d stack code",
            "line 4: domain 'd' is already on line 3",
        ),
        (
            "domain d stack code\nstart x code|0",
            "line 4: no domain 'x'",
        ),
        ("domain d stack code\nstart d x|0", "line 4: no segment 'x'"),
        (
            "domain d stack code\nstart d code|x",
            "line 4: no label 'x'",
        ),
        (
            "domain d stack code\nstart d code|4096",
            "line 4: the word number must be 0 to 4095, not 4096",
        ),
        (
            "start d code|0\nstart d code|0",
            "line 4: the start is already on line 3",
        ),
        (
            "start",
            "line 3: expected a domain, found the end of the line",
        ),
        (
            "start d",
            "line 3: expected a segment, found the end of the line",
        ),
    ] {
        refused(&format!("{begin}{lines}"), reason);
    }
}

#[test]
fn dead_gates() {
    let dead = "segment 'code' has gates into domain 'd', which has no E on it";
    let text = |gates: &str, rights: &str| {
        let domain =
            format!("domain d stack code\n{rights}\ndomain e stack code\nrights code RWEG");
        format!("segment more\nHALT\nsegment code\n{gates}\nHALT\n{domain}\nstart e code|0")
    };
    for rights in ["", "rights code R", "rights code RWG", "rights more E"] {
        refused(&text("gates 1 into d", rights), &format!("line 4: {dead}"));
        assert!(text::assemble(&text("gates 0 into d", rights)).is_ok());
        assert!(text::assemble(&text("gates 1 into e", rights)).is_ok());
    }
    for rights in ["rights code E", "rights code GEW"] {
        assert!(text::assemble(&text("gates 1 into d", rights)).is_ok());
    }
    let first = around("gates 1 into only\nHALT").replace("code E", "code RWG");
    let dead = "line 2: segment 'code' has gates into domain 'only', which has no E on it";
    refused(&first, dead);
    refused(&first.replace("code|0", "x|0"), dead);
    let late = "start only code|0\ndomain only stack code\nsegment code\nHALT\ngates 1 into only";
    refused(late, &dead.replace("line 2", "line 5"));
}

#[test]
fn too_much_or_too_little() {
    refused("", "line 1: the text has no 'segment' line");
    refused("\n\n# nothing", "line 3: the text has no 'segment' line");
    refused("segment s\nHALT", "line 2: the text has no 'domain' line");
    let text = "segment s\nHALT\ndomain d stack s";
    refused(text, "line 3: the text has no 'start' line");
    refused(
        &around("segment more\nHALT"),
        "line 1: segment 'code' has no words",
    );
    let text = around("zeros 4096\nHALT");
    refused(&text, "line 3: segment 'code' passes 4096 words");
    let text = around("zeros 4096\nsegment x\nzeros 4096\nsegment y\nHALT");
    refused(&text, "line 6: the segments together pass 8192 words");
    let text: String = (0..17).map(|k| format!("segment s{k}\n")).collect();
    refused(&text, "line 17: more than 16 segments");
    let text: String = (0..9).map(|k| format!("domain d{k} stack s\n")).collect();
    refused(&text, "line 9: more than 8 domains");
}
