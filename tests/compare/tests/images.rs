//! The proved reader and writer of images and the reference's give the same.

use compare::images::{samples, Call, Comparison, Sample};
use generator::DEAD_GATES;

/// A fixed batch: the short images with their prefixes, some of them with
/// each byte changed, and some hundreds of generated images and records.
fn batch(all: &mut Comparison) -> Result<(), String> {
    let samples = samples();
    let short: Vec<Sample> = samples.iter().filter(|s| s.is_short()).cloned().collect();
    all.prefixes(&short)?;
    all.changes(&short[..2], false)?;
    all.whole(&samples)?;
    all.short_memories(&samples)?;
    all.short_records(&samples)?;
    all.records(300)?;
    all.damaged(7, 2_000)?;
    all.good(7, 500)
}

#[test]
fn the_reader_and_the_writer_agree() {
    let mut all = Comparison::new(7).unwrap_or_else(|missing| panic!("{missing}"));
    batch(&mut all).unwrap_or_else(|difference| panic!("{difference}"));
    let tally = &all.tally;
    for number in (0..=8).chain([10]) {
        let few = tally.of(Call::Read, number) < 30;
        assert!(!few, "few reads that give {number}\n{tally}");
    }
    for number in [0, 7, 8, 9] {
        let few = tally.of(Call::Write, number) < 20;
        assert!(!few, "few writes that give {number}\n{tally}");
    }
    for made in DEAD_GATES {
        let few = tally.dead_gates.of(made) < 10;
        assert!(!few, "few of {made:?}\n{tally}");
    }
    assert!(tally.dead_writes >= 40, "few writes of dead gates\n{tally}");
}

#[test]
fn the_last_of_the_ten_images_is_the_longest() {
    let samples = samples();
    assert_eq!(samples.len(), 10);
    assert_eq!(samples[9].bytes.len(), 33_080);
    assert_eq!(samples.iter().filter(|s| s.is_short()).count(), 7);
}
