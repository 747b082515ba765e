//! Question 5: the fields of sound desks set to values at and past their bounds, one at a time and
//! several at once.

mod bounds;
mod detail;
mod past;
mod sample;

use std::collections::{BTreeMap, BTreeSet};

use bounds::{clauses, values};
use days::random::Random;
use desk::layout::{Clause, Field, Part};
use sample::{samples, Sample};

/// How many values are tried on a desk, more or less.
const VALUES_PER_DESK: usize = 6_000;

/// How often a clause's fields were set and the desk stayed sound, and how often a clause and no
/// other was broken.
#[derive(Default)]
struct Verdicts {
    kept: BTreeMap<Clause, usize>,
    broken: BTreeMap<Clause, usize>,
}

impl Verdicts {
    fn count(&mut self, clauses: &[Clause], broken: &BTreeSet<Clause>) {
        if broken.is_empty() {
            for clause in clauses {
                *self.kept.entry(*clause).or_default() += 1;
            }
        } else if let (1, Some(clause)) = (broken.len(), broken.first()) {
            *self.broken.entry(*clause).or_default() += 1;
        }
    }
}

/// Sets each field to each of its values, or on a desk of many fields to three of them.
fn set_each_field(sample: &mut Sample, random: &mut Random, verdicts: &mut Verdicts) {
    let fields = sample.fields();
    let most = (VALUES_PER_DESK / fields.len()).max(3);
    for field in fields {
        let words = sample.desk.words();
        let (clauses, mut values) = (clauses(words, field), values(words, field, random));
        while values.len() > most {
            values.swap_remove(random.below(values.len()));
        }
        for value in values {
            sample.set(field, value);
            let broken = sample.judge(random);
            verdicts.count(&clauses, &broken);
            sample.restore();
        }
    }
}

#[test]
fn every_clause_is_kept_and_broken_alone_and_the_verdicts_agree() {
    let (mut verdicts, mut random) = (Verdicts::default(), Random::new(21));
    for mut sample in samples() {
        assert_eq!(sample.judge(&mut random), BTreeSet::new());
        set_each_field(&mut sample, &mut random, &mut verdicts);
    }
    for clause in Clause::ALL {
        let times = |counts: &BTreeMap<Clause, usize>| counts.get(&clause).copied().unwrap_or(0);
        let (kept, broken) = (times(&verdicts.kept), times(&verdicts.broken));
        assert!(kept > 10 && broken > 10, "{clause:?}: {kept}, {broken}");
    }
}

#[test]
fn verdicts_agree_where_several_fields_are_set() {
    let mut random = Random::new(22);
    let mut seen = [0; 2];
    for mut sample in samples() {
        let fields = sample.fields();
        for _ in 0..400 {
            for _ in 0..random.between(2, 4) {
                let field = random.one_of(&fields);
                let values = values(sample.desk.words(), field, &mut random);
                sample.set(field, random.one_of(&values));
            }
            let broken = sample.judge(&mut random);
            seen[usize::from(broken.is_empty())] += 1;
            sample.restore();
        }
    }
    assert!(seen.iter().all(|&times| times > 1_000), "{seen:?}");
}

/// A value that is out of range for a field whatever the others are; none for a field that has no
/// range of its own.
fn out_of_range(sample: &Sample, field: Field) -> Option<u64> {
    let words = sample.desk.words();
    let end = words.records().map_or(0, |records| records.end);
    match field {
        Field::Mark(_) | Field::Block(_) | Field::Set(_) => None,
        Field::Order(record, Part::Id) if record + 1 == end => Some(0),
        Field::Order(_, Part::Id) => Some(u64::MAX),
        _ => Some(u64::MAX / 2),
    }
}

#[test]
fn no_field_of_the_largest_desks_is_passed_over() {
    let mut random = Random::new(23);
    let mut set = 0;
    let largest = ["largest roster, as it is", "full list, as it is"];
    let wanted = |sample: &Sample| largest.contains(&&*sample.name);
    for mut sample in samples().into_iter().filter(wanted) {
        for field in sample.fields() {
            if let Some(value) = out_of_range(&sample, field) {
                sample.set(field, value);
                let broken = sample.judge(&mut random);
                assert!(!broken.is_empty(), "{}, {field:?}", sample.name);
                sample.restore();
                set += 1;
            }
        }
    }
    assert_eq!(set, 3_912);
}
