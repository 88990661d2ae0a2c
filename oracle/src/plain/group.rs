//! Steps 4 and 5: the alignment group of each side, the minimum, the read cap.

use super::cigar::{Entry, takes_read};
use super::wrong::Wrong;
use super::{Fate, Fates, Reader, give};
use crate::model::Family;
use std::cmp::{Ordering, Reverse};

type Group = (Vec<Entry>, Vec<usize>);

impl Reader {
    /// The sides that stay, or nothing where reads are insufficient.
    pub(super) fn groups_and_cap(
        &self,
        family: &Family,
        mut sides: [Vec<usize>; 2],
        fates: &mut Fates,
    ) -> Option<[Vec<usize>; 2]> {
        let few = |side: &Vec<usize>| (side.len() as u64) < family.options.min_reads;
        if self.misreads(Wrong::CapBeforeGroup) {
            self.cap(family, &mut sides, fates)?;
        }
        let mut minority = Vec::new();
        for side in &mut sides {
            let stay = self.most_common(family, side);
            minority.extend(side.iter().copied().filter(|record| !stay.contains(record)));
            side.retain(|record| stay.contains(record));
            if self.misreads(Wrong::R1MinimumFirst) && few(side) {
                break;
            }
        }
        if self.misreads(Wrong::PartnerLeaves) {
            let names: Vec<u32> = minority.iter().map(|&r| family.records[r].name).collect();
            let leaves = |record: &usize| names.contains(&family.records[*record].name);
            sides.iter().for_each(|side| minority.extend(side.iter().copied().filter(leaves)));
            sides.iter_mut().for_each(|side| side.retain(|record| !leaves(record)));
        }
        minority.into_iter().for_each(|record| give(fates, record, Fate::Reason(4)));
        if sides.iter().any(|side| few(side) || side.is_empty()) {
            return None;
        }
        if !self.misreads(Wrong::CapBeforeGroup) {
            self.cap(family, &mut sides, fates)?;
        }
        Some(sides)
    }

    fn most_common(&self, family: &Family, side: &[usize]) -> Vec<usize> {
        if side.len() < 2 {
            return side.to_vec();
        }
        let fields = |record: usize| &family.records[record];
        let first_is_reverse = fields(side[0]).flags & 16 != 0;
        let list = |record: usize| {
            let own = fields(record).flags & 16 != 0;
            let reverse = if self.misreads(Wrong::ReversedBySide) { first_is_reverse } else { own };
            let words = family.operations(fields(record)).unwrap_or(&[]);
            self.simplified(words, reverse)
        };
        let mut taken: Vec<(usize, Vec<Entry>)> = side.iter().map(|&r| (r, list(r))).collect();
        if self.misreads(Wrong::OrderTiesLater) {
            taken.reverse();
        }
        taken.sort_by_key(|(record, list)| {
            Reverse(match self.misreads(Wrong::OrderBySpan) {
                true => list.iter().filter(|e| takes_read(e.1)).map(|e| e.0).sum(),
                false => u64::from(fields(*record).clipped_length),
            })
        });
        self.largest(self.grouped(taken))
    }

    fn grouped(&self, taken: Vec<(usize, Vec<Entry>)>) -> Vec<Group> {
        let mut groups: Vec<Group> = Vec::new();
        for (place, (record, list)) in taken.iter().enumerate() {
            let mut joined = false;
            for (first, members) in &mut groups {
                if self.is_prefix(list, first) && !(joined && self.misreads(Wrong::FirstGroupOnly))
                {
                    members.push(*record);
                    joined = true;
                }
            }
            if !joined {
                let mut members = vec![*record];
                if self.misreads(Wrong::LaterGroupGains) {
                    let earlier = taken[..place].iter().filter(|e| self.is_prefix(&e.1, list));
                    members.extend(earlier.map(|e| e.0));
                }
                groups.push((list.clone(), members));
            }
        }
        groups
    }

    fn largest(&self, groups: Vec<Group>) -> Vec<usize> {
        let mut groups = groups.into_iter();
        let mut best = groups.next().expect("two records or more");
        for group in groups {
            let by_size = group.1.len().cmp(&best.1.len());
            if by_size == Ordering::Greater
                || by_size == Ordering::Equal && self.wins_tie(&group.0, &best.0)
            {
                best = group;
            }
        }
        best.1
    }

    fn wins_tie(&self, list: &[Entry], best: &[Entry]) -> bool {
        let swapped = |list: &[Entry]| list.iter().map(|e| (e.1, e.0)).collect::<Vec<_>>();
        let lengths = |list: &[Entry]| list.iter().map(|e| e.0).collect::<Vec<_>>();
        match self.0 {
            Some(Wrong::GroupTieLarger) => list > best,
            Some(Wrong::GroupTieFirst) => false,
            Some(Wrong::GroupTieCodeFirst) => swapped(list) < swapped(best),
            Some(Wrong::GroupTieLengthsFirst) => (lengths(list), list) < (lengths(best), best),
            Some(Wrong::GroupTieEntriesFirst) => (list.len(), list) < (best.len(), best),
            _ => list < best,
        }
    }

    /// Nothing where the cap is 0.
    fn cap(&self, family: &Family, sides: &mut [Vec<usize>; 2], fates: &mut Fates) -> Option<()> {
        let cap = match family.options.cap {
            Some(0) if self.misreads(Wrong::CapZeroIsNone) => return Some(()),
            Some(0) => return None,
            Some(cap) => cap,
            None => return Some(()),
        };
        for side in sides {
            let ranks: Vec<i64> = side.iter().map(|&r| self.rank(family.records[r].rank)).collect();
            let comes_before = |a: usize, b: usize| {
                let tie = if self.misreads(Wrong::CapTiesLater) { a > b } else { a < b };
                ranks[a] < ranks[b] || ranks[a] == ranks[b] && tie
            };
            let stays = |place: usize| {
                (0..ranks.len()).filter(|&other| comes_before(other, place)).count()
                    < usize::try_from(cap).expect("64-bit")
            };
            let keep: Vec<bool> = (0..side.len()).map(stays).collect();
            for (&record, _) in side.iter().zip(&keep).filter(|(_, keep)| !**keep) {
                if !self.misreads(Wrong::DownsampledFate) {
                    give(fates, record, Fate::Reason(5));
                }
            }
            let mut kept = keep.iter();
            side.retain(|_| *kept.next().expect("one for each"));
        }
        Some(())
    }

    fn rank(&self, rank: i32) -> i64 {
        match self.0 {
            Some(Wrong::UnsignedRanks) => i64::from(rank as u32),
            Some(Wrong::HighestRanks) => -i64::from(rank),
            _ => i64::from(rank),
        }
    }
}
