//! Burst slots and intervals (paper 02, tickets 9 to 11), against a model written from the tickets.
use crate::model::Answer;
use crate::numbered;
use crate::random::{seeds, Buffer, Random};
use dfb::Offer;

const FREE: u8 = 0;
const HELD: u8 = 1;
const SENDING: u8 = 2;

/// Refusals 2 and 3.
fn check(status: &[u8], criteria: &[u32]) -> Answer<()> {
    if status.len() != criteria.len() {
        return Err(2);
    }
    let sending = status.iter().filter(|&&s| s == SENDING).count();
    if status.len() > 32 || status.iter().any(|&s| s > 2) || sending > 1 {
        return Err(3);
    }
    Ok(())
}

/// An accepted call: slot i gets a status and a criterion, and slots that are not held have criterion 0.
fn change(status: &mut [u8], criteria: &mut [u32], slot: usize, to: u8, criterion: u32) -> usize {
    status[slot] = to;
    criteria[slot] = criterion;
    for (s, c) in status.iter().zip(criteria) {
        if *s != HELD {
            *c = 0;
        }
    }
    slot
}

fn offer(status: &mut [u8], criteria: &mut [u32], criterion: u32) -> Answer<Offer> {
    check(status, criteria)?;
    if let Some(slot) = status.iter().position(|&s| s == FREE) {
        change(status, criteria, slot, HELD, criterion);
        return Ok(Offer::Taken { slot, looked: slot + 1 });
    }
    let looked = status.len();
    let smallest = (0..status.len()).filter(|&i| status[i] == HELD).min_by_key(|&i| (criteria[i], i));
    match smallest {
        Some(slot) if criteria[slot] < criterion => {
            change(status, criteria, slot, HELD, criterion);
            Ok(Offer::Taken { slot, looked })
        }
        _ => Ok(Offer::TurnedAway { looked }),
    }
}

fn choose(status: &mut [u8], criteria: &mut [u32]) -> Answer<usize> {
    check(status, criteria)?;
    if status.contains(&SENDING) {
        return Err(27);
    }
    let mut greatest: Option<usize> = None;
    for i in 0..status.len() {
        if status[i] == HELD && greatest.map_or(true, |g| criteria[i] > criteria[g]) {
            greatest = Some(i);
        }
    }
    let slot = greatest.ok_or(26)?;
    Ok(change(status, criteria, slot, SENDING, 0))
}

fn finish(status: &mut [u8], criteria: &mut [u32]) -> Answer<usize> {
    check(status, criteria)?;
    let slot = status.iter().position(|&s| s == SENDING).ok_or(28)?;
    Ok(change(status, criteria, slot, FREE, 0))
}

/// Lists of calls, from slots that are sound and from others.
#[test]
fn lists_of_calls() {
    for seed in seeds(4_000) {
        let mut r = Random::new(seed);
        let count: usize = r.pick(&[0, 1, 2, 3, 5, 31, 32, 33]);
        let other = if r.below(20) == 0 { r.pick(&[count + 1, count.saturating_sub(1)]) } else { count };
        let most = if r.below(10) == 0 { 4 } else { 2 };
        let mut status = Buffer::of_length(count, || r.below(most) as u8);
        let mut criteria = Buffer::of_length(other, || r.pick(&[0, 1, 2, 3, u32::MAX]));
        for _ in 0..40 {
            let (mut s, mut c) = (status.clone(), criteria.clone());
            match r.below(4) {
                0 => assert_eq!(numbered(dfb::burst_choose(status.list(), criteria.list())), choose(s.list(), c.list())),
                1 => assert_eq!(numbered(dfb::burst_finish(status.list(), criteria.list())), finish(s.list(), c.list())),
                _ => {
                    let criterion = r.pick(&[0, 1, 2, 3, 4, u32::MAX]);
                    let answer = numbered(dfb::burst_offer(status.list(), criteria.list(), criterion));
                    assert_eq!(answer, offer(s.list(), c.list(), criterion));
                }
            }
            assert_eq!((&status, &criteria), (&s, &c));
        }
    }
}

fn interval(index: &[u32], bonus: u32, limit: u32) -> Answer<(usize, usize)> {
    if index.len() > 16_000 {
        return Err(2);
    }
    if limit == 0 {
        return Err(29);
    }
    if index.iter().all(|&c| c == 0) {
        return Err(26);
    }
    let greatest = *index.iter().max().unwrap();
    let start = index.iter().position(|&c| c == greatest).unwrap();
    let joins = |i: usize| u64::from(index[i]) + u64::from(bonus) >= u64::from(greatest);
    let (mut first, mut last) = (start, start);
    let (mut older, mut newer) = (true, true);
    let mut turn_older = true;
    while (older || newer) && ((last - first + 1) as u64) < u64::from(limit) {
        if turn_older && older {
            if first > 0 && joins(first - 1) {
                first -= 1;
            } else {
                older = false;
            }
        } else if !turn_older && newer {
            if last + 1 < index.len() && joins(last + 1) {
                last += 1;
            } else {
                newer = false;
            }
        }
        turn_older = !turn_older;
    }
    Ok((first, last))
}

fn compare_interval(index: &[u32], bonus: u32, limit: u32) {
    let mut lent = Buffer::lent(index);
    assert_eq!(numbered(dfb::choose_interval(lent.list(), bonus, limit)), interval(index, bonus, limit));
    assert!(lent == Buffer::lent(index));
}

#[test]
fn intervals() {
    for seed in seeds(20_000) {
        let mut r = Random::new(seed);
        let length = r.pick(&[0, 1, 2, 3, 8, 30]);
        let most = r.pick(&[1, 2, 5, 100]);
        let index: Vec<u32> = (0..length).map(|_| r.below(most) as u32 * r.pick(&[1, 1, 42_949_672])).collect();
        let bonus = r.pick(&[0, 1, 3, 50, u32::MAX]);
        let limit = r.pick(&[0, 1, 2, 3, 7, 40, u32::MAX]);
        compare_interval(&index, bonus, limit);
    }
    for first in [0, 255, 256, 4096, 15_998] {
        let mut index = vec![0; 16_000];
        index[first..first + 2].fill(7);
        assert_eq!(numbered(dfb::choose_interval(&index, 0, 5)), Ok((first, first + 1)));
    }
    for length in [15_999, 16_000, 16_001] {
        let index: Vec<u32> = (0..length).map(|i| i * 7919 % 1013).collect();
        for (bonus, limit) in [(0, 5), (2000, u32::MAX), (2000, 1000)] {
            compare_interval(&index, bonus, limit);
        }
    }
}
