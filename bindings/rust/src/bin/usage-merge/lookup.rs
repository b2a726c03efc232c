//! Which conflicts the strict lookup alone finds.
//!
//! It finds those of the lenient one, in the same order, and conflicts of types between them. But a
//! report does not say where its groups end: the longer one may say less of what led to a conflict,
//! and conflicts may read alike in it.

use usage_merger::Conflict;

/// Which lookups find a conflict.
#[derive(Clone, Copy, Debug, PartialEq, Eq)]
pub enum FoundBy {
    Both,
    Strict,
    /// The reports do not say.
    Unclear,
}

/// Of each conflict of the strict lookup, whether the lenient one has it, too. It is the same one for
/// certain where it can be no other.
pub fn found_by(strict: &[Conflict], lenient: &[Conflict]) -> Vec<FoundBy> {
    let earliest = places(strict.iter().enumerate(), lenient.iter());
    let latest = places(strict.iter().enumerate().rev(), lenient.iter().rev());
    // Both bounds ascend.
    let bounds: Vec<(usize, usize)> = earliest.into_iter().zip(latest.into_iter().rev()).collect();
    let found = |(place, conflict): (usize, &Conflict)| {
        let from = bounds.partition_point(|(_, latest)| *latest < place);
        let near = bounds.iter().zip(lenient).skip(from);
        let mut may_be = near
            .take_while(|((earliest, _), _)| *earliest <= place)
            .filter(|(_, lenient)| may_be_one(conflict, lenient));
        match may_be.next() {
            None => FoundBy::Strict,
            Some(((earliest, latest), _)) if earliest == latest => FoundBy::Both,
            Some(_) => FoundBy::Unclear,
        }
    };
    strict.iter().enumerate().map(found).collect()
}

/// For each lenient conflict in turn, the next place of a strict one that may be the same.
fn places<'c>(
    mut strict: impl Iterator<Item = (usize, &'c Conflict)>,
    lenient: impl Iterator<Item = &'c Conflict>,
) -> Vec<usize> {
    lenient
        .map_while(|lenient| strict.find(|(_, strict)| may_be_one(strict, lenient)))
        .map(|(place, _)| place)
        .collect()
}

/// Whether one path may have led to both. Of the strict one less of it is certain.
fn may_be_one(strict: &Conflict, lenient: &Conflict) -> bool {
    let Some(before) = lenient.offsets.strip_suffix(&strict.offsets[..]) else { return false };
    let mut perhaps = strict.perhaps_within.iter();
    (strict.node, strict.kind) == (lenient.node, lenient.kind)
        && before.iter().all(|offset| perhaps.any(|other| other == offset))
}

#[cfg(test)]
mod tests {
    use super::FoundBy::{Both, Strict, Unclear};
    use super::*;

    /// What a report says: for each conflict the entry that is one more of a group, if there is one,
    /// the first entries of groups within it, and the kind.
    fn conflicts(lines: &[(&[u8], &[u8], u8)]) -> Vec<Conflict> {
        let mut report = Vec::new();
        for (next, within, kind) in lines {
            for offset in *next {
                report.extend([0x31, *offset, 0, 0, 0]);
            }
            for offset in *within {
                report.extend([0x30, 0x31, *offset, 0, 0, 0]);
            }
            report.push(*kind);
        }
        Conflict::list_from_bytes(&report).unwrap()
    }

    #[test]
    fn what_is_more_is_found_among_the_others() {
        // Entries 0, 4 and 8, of which two are the lenient lookup's.
        let all = conflicts(&[(&[], &[0], 0x32), (&[4], &[], 0x33), (&[8], &[], 0x32)]);
        let lenient = conflicts(&[(&[], &[4], 0x33), (&[8], &[], 0x32)]);
        assert_eq!(found_by(&all, &lenient), [Strict, Both, Both]);
        assert_eq!(found_by(&all, &[]), [Strict; 3]);
        assert_eq!(found_by(&all, &all), [Both; 3]);
        assert!(found_by(&[], &[]).is_empty());
    }

    #[test]
    fn what_led_to_a_conflict_may_be_less_certain() {
        // 8 in 0, before which the strict lookup finds 4 in 0; and then 12.
        let all = conflicts(&[(&[], &[0, 4], 0x32), (&[8], &[], 0x32), (&[12], &[], 0x33)]);
        let lenient = conflicts(&[(&[], &[0, 8], 0x32), (&[12], &[], 0x33)]);
        assert_ne!(all[1], lenient[0]);
        assert_eq!(found_by(&all, &lenient), [Strict, Both, Both]);
        // 4 in 0, and not 4 alone: that much is certain.
        let all = conflicts(&[(&[], &[4], 0x32), (&[0], &[4], 0x32)]);
        let lenient = conflicts(&[(&[], &[0, 4], 0x32)]);
        assert_eq!(found_by(&all, &lenient), [Strict, Both]);
    }

    #[test]
    fn where_reports_do_not_say_it_is_unclear() {
        // 4, after 2 in 0: in 0, or in what 0 is in.
        let all = conflicts(&[(&[], &[0, 2], 0x32), (&[4], &[], 0x32), (&[4], &[], 0x32)]);
        let lenient = conflicts(&[(&[], &[4], 0x32)]);
        assert_eq!(found_by(&all, &lenient), [Strict, Unclear, Unclear]);
    }
}
