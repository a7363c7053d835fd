//! The gatekeeper of document 01, and document 02's suggestions, for schemes without a sixth record, as a plain Rust program, to
//! compare the library's speed and answers with. It reads the scheme into structs and then follows the documents' sentences. It
//! comes in three forms: LISTS lists every member's friends once a request; PAIRS reads a member's friends off the pair bytes where
//! they are asked for; ROWS sets every member's friends as bits once a request, and counts shared friends by words of them.

use std::borrow::Cow;
use std::cmp::Reverse;
use std::collections::VecDeque;

pub const LISTS: u8 = 0;
pub const PAIRS: u8 = 1;
pub const ROWS: u8 = 2;

const UNDEFINED: u8 = 255;
const SEARCH: usize = 0;
const TRAVERSAL: usize = 1;
const NOBODY: usize = usize::MAX; // whom no walk meets

enum Policy {
    NoOne,
    Everyone,
    Owner,
    Within(usize),
    Known(usize),
    Clique(usize),
    State { set: u32, side: u8 },
    Both(usize, usize),
    Either(usize, usize),
}

struct Scheme {
    members: usize,
    states: usize,
    primitives: usize,
    items: usize,
    moves: Vec<u8>,
    marks: Vec<bool>,
    policies: Vec<Policy>,
    masks: Vec<u32>,
}

fn number(bytes: &[u8]) -> usize {
    usize::from(bytes[0]) + 256 * usize::from(bytes[1])
}

/// The body of the record of that kind and length at the front, and the bytes behind it.
fn take_record(bytes: &[u8], kind: usize, length: usize) -> Option<(&[u8], &[u8])> {
    if bytes.len() < 4 + length || number(bytes) != length || number(&bytes[2..]) != kind {
        return None;
    }
    Some(bytes[4..].split_at(length))
}

fn read_policy(bytes: &[u8], own: usize, states: usize) -> Option<Policy> {
    let (kind, k, left, right) = (bytes[0], bytes[1], usize::from(bytes[2]), usize::from(bytes[3]));
    let set = bytes[2] as u32 + 256 * bytes[3] as u32;
    let alone = left == 0 && right == 0;
    let combined = k == 0 && left < own && right < own;
    match kind {
        0 if k == 0 && alone => Some(Policy::NoOne),
        1 if k == 0 && alone => Some(Policy::Everyone),
        2 if k == 0 && alone => Some(Policy::Owner),
        3 if k >= 1 && alone => Some(Policy::Within(usize::from(k))),
        4 if k >= 1 && alone => Some(Policy::Known(usize::from(k))),
        5 if (2..=5).contains(&k) && alone => Some(Policy::Clique(usize::from(k))),
        6 if k <= 2 && set >> states == 0 => Some(Policy::State { set, side: k }),
        7 if combined => Some(Policy::Both(left, right)),
        8 if combined => Some(Policy::Either(left, right)),
        _ => None,
    }
}

fn offers(mask: u32, p: usize) -> bool {
    p < 32 && mask >> p & 1 == 1
}

impl Scheme {
    /// The scheme check.
    fn read(bytes: &[u8]) -> Result<Scheme, u8> {
        let (head, rest) = take_record(bytes, 1, 6).ok_or(1)?;
        let members = number(head);
        let [states, primitives, items, count] = [head[2], head[3], head[4], head[5]].map(usize::from);
        let fits = |count, most| (1..=most).contains(&count);
        if !(fits(members, 256) && fits(states, 16) && fits(primitives, 8) && fits(items, 16) && fits(count, 32)) {
            return Err(2);
        }
        let resources = 2 + primitives + items;
        let (moves, rest) = take_record(rest, 2, states * 2 * primitives).ok_or(1)?;
        let (marks, rest) = take_record(rest, 3, states).ok_or(1)?;
        let (policies, rest) = take_record(rest, 4, count * 4).ok_or(1)?;
        let (masks, rest) = take_record(rest, 5, resources * 4).ok_or(1)?;
        if !rest.is_empty() {
            return Err(1);
        }
        if moves.iter().any(|&q| q != UNDEFINED && usize::from(q) >= states) || marks.iter().any(|&mark| mark > 1) {
            return Err(3);
        }
        let policies: Option<Vec<Policy>> =
            policies.chunks(4).enumerate().map(|(p, bytes)| read_policy(bytes, p, states)).collect();
        let policies = policies.ok_or(3)?;
        let masks: Vec<u32> = masks.chunks(4).map(|b| u32::from_le_bytes([b[0], b[1], b[2], b[3]])).collect();
        if masks.iter().any(|&mask| mask == 0 || u64::from(mask) >> count != 0) {
            return Err(3);
        }
        let marks = marks.iter().map(|&mark| mark == 1).collect();
        let scheme = Scheme { members, states, primitives, items, moves: moves.to_vec(), marks, policies, masks };
        if scheme.strangers_apart() { Ok(scheme) } else { Err(4) }
    }

    fn resources(&self) -> usize {
        2 + self.primitives + self.items
    }

    fn pairs(&self) -> usize {
        self.members * (self.members - 1) / 2
    }

    /// Whether state 0 makes no friends and the lowest search policy admits no stranger.
    fn strangers_apart(&self) -> bool {
        let search = self.masks[SEARCH].trailing_zeros() as usize;
        !self.marks[0] && !self.admits_stranger(search, 1) && !self.admits_stranger(search, 2)
    }

    /// Policies are judged from 0 up, since operands may be shared many times.
    fn admits_stranger(&self, p: usize, side: u8) -> bool {
        let mut admitted: Vec<bool> = Vec::new();
        for policy in &self.policies[..=p] {
            let admits = match *policy {
                Policy::Everyone => true,
                Policy::State { set, side: wanted } => set & 1 == 1 && (wanted == 0 || wanted == side),
                Policy::Both(left, right) => admitted[left] && admitted[right],
                Policy::Either(left, right) => admitted[left] || admitted[right],
                _ => false,
            };
            admitted.push(admits);
        }
        admitted[p]
    }
}

/// Where the state of two different members stands.
fn pair_place(u: usize, v: usize) -> usize {
    let (i, j) = (u.min(v), u.max(v));
    j * (j - 1) / 2 + i
}

/// A network that passes 5, read.
struct Network<'a, const FORM: u8> {
    scheme: &'a Scheme,
    bytes: &'a [u8],
    lists: Vec<Vec<usize>>,
    rows: Vec<Row>,
}

fn is_valid(scheme: &Scheme, bytes: &[u8]) -> bool {
    if bytes.len() != scheme.pairs() + scheme.members * scheme.resources() {
        return false;
    }
    let (pairs, settings) = bytes.split_at(scheme.pairs());
    pairs.iter().all(|&q| usize::from(q) < scheme.states)
        && settings
            .chunks(scheme.resources())
            .all(|of_member| of_member.iter().zip(&scheme.masks).all(|(&p, &mask)| offers(mask, usize::from(p))))
}

/// Every member's friends, in rising order.
fn friend_lists(scheme: &Scheme, bytes: &[u8]) -> Vec<Vec<usize>> {
    let mut lists: Vec<Vec<usize>> = (0..scheme.members).map(|_| Vec::with_capacity(scheme.members)).collect();
    for j in 0..scheme.members {
        for i in 0..j {
            if scheme.marks[usize::from(bytes[pair_place(i, j)])] {
                lists[i].push(j);
                lists[j].push(i);
            }
        }
    }
    lists
}

/// A set of members: bit m of the row for member m.
type Row = [u64; 4];

/// Every member's friends.
fn friend_rows(scheme: &Scheme, bytes: &[u8]) -> Vec<Row> {
    let mut rows = vec![[0; 4]; scheme.members];
    let mut states = bytes.iter();
    for j in 0..scheme.members {
        for (i, &state) in states.by_ref().take(j).enumerate() {
            let friends = u64::from(scheme.marks[usize::from(state)]);
            rows[i][j / 64] |= friends << (j % 64);
            rows[j][i / 64] |= friends << (i % 64);
        }
    }
    rows
}

fn in_both(left: &Row, right: &Row) -> Row {
    std::array::from_fn(|i| left[i] & right[i])
}

fn count(row: &Row) -> usize {
    row.iter().map(|word| word.count_ones() as usize).sum()
}

/// The members of a row, in rising order.
fn members_of(row: &Row) -> Vec<usize> {
    let mut members = Vec::with_capacity(count(row));
    for (i, &word) in row.iter().enumerate() {
        let mut rest = word;
        while rest != 0 {
            members.push(64 * i + rest.trailing_zeros() as usize);
            rest &= rest - 1;
        }
    }
    members
}

impl<'a, const FORM: u8> Network<'a, FORM> {
    fn read(scheme: &'a Scheme, bytes: &'a [u8]) -> Result<Self, u8> {
        if !is_valid(scheme, bytes) {
            return Err(5);
        }
        let lists = if FORM == LISTS { friend_lists(scheme, bytes) } else { Vec::new() };
        let rows = if FORM == ROWS { friend_rows(scheme, bytes) } else { Vec::new() };
        Ok(Network { scheme, bytes, lists, rows })
    }

    fn state(&self, u: usize, v: usize) -> u8 {
        if u == v { 0 } else { self.bytes[pair_place(u, v)] }
    }

    fn are_friends(&self, u: usize, v: usize) -> bool {
        if FORM == ROWS {
            return self.rows[u][v / 64] >> (v % 64) & 1 == 1;
        }
        u != v && self.scheme.marks[usize::from(self.state(u, v))]
    }

    fn friends(&self, u: usize) -> Cow<'_, [usize]> {
        match FORM {
            LISTS => Cow::Borrowed(&self.lists[u]),
            ROWS => Cow::Owned(members_of(&self.rows[u])),
            _ => Cow::Owned((0..self.scheme.members).filter(|&v| self.are_friends(u, v)).collect()),
        }
    }

    fn setting(&self, m: usize, r: usize) -> usize {
        usize::from(self.bytes[self.scheme.pairs() + m * self.scheme.resources() + r])
    }

    /// Whether a walk of at most k friendships joins u and v.
    fn within(&self, u: usize, v: usize, k: usize) -> bool {
        let mut seen = vec![false; self.scheme.members];
        let mut waiting = VecDeque::from([(u, 0)]);
        seen[u] = true;
        while let Some((m, steps)) = waiting.pop_front() {
            if m == v {
                return true;
            }
            if steps < k {
                for &friend in self.friends(m).iter() {
                    if !seen[friend] {
                        seen[friend] = true;
                        waiting.push_back((friend, steps + 1));
                    }
                }
            }
        }
        false
    }

    fn shared_friends(&self, u: usize, v: usize) -> Vec<usize> {
        self.friends(u).iter().copied().filter(|&m| self.are_friends(m, v)).collect()
    }

    fn shared_row(&self, u: usize, v: usize) -> Row {
        in_both(&self.rows[u], &self.rows[v])
    }

    fn shared_count(&self, u: usize, v: usize) -> usize {
        if FORM == ROWS { count(&self.shared_row(u, v)) } else { self.shared_friends(u, v).len() }
    }

    /// Whether u and v share so many friends who are all friends of each other.
    fn shared_clique(&self, u: usize, v: usize, size: usize) -> bool {
        if FORM == ROWS {
            self.clique_in_row(self.shared_row(u, v), size)
        } else {
            self.clique_among(&self.shared_friends(u, v), size)
        }
    }

    /// Whether so many of the candidates are all friends of each other.
    fn clique_among(&self, candidates: &[usize], size: usize) -> bool {
        if size <= 1 {
            return candidates.len() >= size;
        }
        candidates.iter().enumerate().any(|(i, &m)| {
            let rest: Vec<usize> = candidates[i + 1..].iter().copied().filter(|&x| self.are_friends(m, x)).collect();
            self.clique_among(&rest, size - 1)
        })
    }

    /// The same, of candidates in a row.
    fn clique_in_row(&self, mut candidates: Row, size: usize) -> bool {
        if size <= 1 {
            return count(&candidates) >= size;
        }
        members_of(&candidates).iter().any(|&m| {
            candidates[m / 64] &= !(1 << (m % 64));
            self.clique_in_row(in_both(&candidates, &self.rows[m]), size - 1)
        })
    }

    /// Whether policy p of owner u admits accessor v. What is judged once is kept, since operands may be shared many times.
    fn policy_admits(&self, p: usize, u: usize, v: usize, judged: &mut [Option<bool>; 32]) -> bool {
        if let Some(known) = judged[p] {
            return known;
        }
        let admits = match self.scheme.policies[p] {
            Policy::NoOne => false,
            Policy::Everyone => true,
            Policy::Owner => u == v,
            Policy::Within(k) => self.within(u, v, k),
            Policy::Known(k) => u == v || self.are_friends(u, v) || self.shared_count(u, v) >= k,
            Policy::Clique(k) => u == v || self.are_friends(u, v) && self.shared_clique(u, v, k - 2),
            Policy::State { set, side } => {
                set >> self.state(u, v) & 1 == 1 && (side == 0 || side == 1 && u < v || side == 2 && u > v)
            }
            Policy::Both(left, right) => {
                self.policy_admits(left, u, v, judged) && self.policy_admits(right, u, v, judged)
            }
            Policy::Either(left, right) => {
                self.policy_admits(left, u, v, judged) || self.policy_admits(right, u, v, judged)
            }
        };
        judged[p] = Some(admits);
        admits
    }

    /// Whether u's setting for resource r admits v.
    fn admits(&self, u: usize, r: usize, v: usize) -> bool {
        self.policy_admits(self.setting(u, r), u, v, &mut [None; 32])
    }

    /// Whether v finds u: breadth first from v and its friends, and only if that fails from those whom search opens.
    fn finds(&self, v: usize, u: usize) -> bool {
        if u == v || self.are_friends(u, v) || self.admits(u, SEARCH, v) {
            return true;
        }
        let mut seen = vec![false; self.scheme.members];
        let mut waiting = VecDeque::from([v]);
        waiting.extend(self.friends(v).iter());
        waiting.iter().for_each(|&m| seen[m] = true);
        if self.walk(v, u, &mut seen, &mut waiting) {
            return true;
        }
        for m in 0..self.scheme.members {
            if !seen[m] && m != u && self.admits(m, SEARCH, v) {
                seen[m] = true;
                waiting.push_back(m);
            }
        }
        self.walk(v, u, &mut seen, &mut waiting)
    }

    fn walk(&self, v: usize, u: usize, seen: &mut [bool], waiting: &mut VecDeque<usize>) -> bool {
        if FORM == ROWS {
            return self.walk_rows(v, u, seen, waiting);
        }
        while let Some(m) = waiting.pop_front() {
            if !self.admits(m, TRAVERSAL, v) {
                continue;
            }
            for &friend in self.friends(m).iter() {
                if friend == u {
                    return true;
                }
                if !seen[friend] {
                    seen[friend] = true;
                    waiting.push_back(friend);
                }
            }
        }
        false
    }

    /// The same by rows: the friends of a member that are not seen, at once.
    fn walk_rows(&self, v: usize, u: usize, seen: &mut [bool], waiting: &mut VecDeque<usize>) -> bool {
        let mut unseen: Row = [0; 4];
        (0..self.scheme.members).for_each(|m| unseen[m / 64] |= u64::from(!seen[m]) << (m % 64));
        while let Some(m) = waiting.pop_front() {
            if !self.admits(m, TRAVERSAL, v) {
                continue;
            }
            if u != NOBODY && self.are_friends(m, u) {
                return true;
            }
            let new = in_both(&self.rows[m], &unseen);
            for friend in members_of(&new) {
                seen[friend] = true;
                waiting.push_back(friend);
            }
            unseen = std::array::from_fn(|i| unseen[i] & !new[i]);
        }
        false
    }

    /// Whether v finds each member: one walk from all who may come first, until no member is left to expand.
    fn all_found(&self, v: usize) -> Vec<bool> {
        let first = |m| m == v || self.are_friends(m, v) || self.admits(m, SEARCH, v);
        let mut seen: Vec<bool> = (0..self.scheme.members).map(first).collect();
        let mut waiting: VecDeque<usize> = (0..self.scheme.members).filter(|&m| seen[m]).collect();
        self.walk(v, NOBODY, &mut seen, &mut waiting);
        seen
    }

    /// How many friends each of the members shares with v, and that member. Without rows they are counted member by member.
    fn shared_counts(&self, v: usize, members: &[usize]) -> Vec<(usize, usize)> {
        if FORM == ROWS {
            return members.iter().map(|&u| (self.shared_count(u, v), u)).collect();
        }
        let friends = self.friends(v);
        let shared = |u| friends.iter().filter(|&&m| self.are_friends(m, u)).count();
        members.iter().map(|&u| (shared(u), u)).collect()
    }

    /// Whom v might know, with counts: most shared friends first, among equals the lower number.
    fn suggestions(&self, v: usize) -> Vec<(usize, usize)> {
        let found = self.all_found(v);
        let others: Vec<usize> =
            (0..self.scheme.members).filter(|&m| found[m] && m != v && !self.are_friends(m, v)).collect();
        let mut counted = self.shared_counts(v, &others);
        counted.retain(|&(count, _)| count > 0);
        counted.sort_unstable_by_key(|&(count, m)| (Reverse(count), m));
        counted
    }

    fn both_members(&self, v: usize, u: usize) -> Result<(), u8> {
        if v < self.scheme.members && u < self.scheme.members { Ok(()) } else { Err(6) }
    }

    /// 9 if v does not find u.
    fn found(&self, v: usize, u: usize) -> Result<(), u8> {
        if self.finds(v, u) { Ok(()) } else { Err(9) }
    }

    /// 11 if u's setting for resource r does not admit v.
    fn allowed(&self, u: usize, r: usize, v: usize) -> Result<(), u8> {
        if self.admits(u, r, v) { Ok(()) } else { Err(11) }
    }
}

fn answer(result: Result<(), u8>) -> u8 {
    result.err().unwrap_or(0)
}

/// Where an event writes, and the next state.
fn judge_event<const FORM: u8>(scheme: &[u8], network: &[u8], v: usize, u: usize, a: usize) -> Result<(usize, u8), u8> {
    let scheme = Scheme::read(scheme)?;
    let network = Network::<FORM>::read(&scheme, network)?;
    network.both_members(v, u)?;
    if a >= scheme.primitives {
        return Err(7);
    }
    if v == u {
        return Err(8);
    }
    network.found(v, u)?;
    let side = usize::from(v > u);
    let next = scheme.moves[(usize::from(network.state(v, u)) * 2 + side) * scheme.primitives + a];
    if next == UNDEFINED {
        return Err(10);
    }
    network.allowed(u, 2 + a, v)?;
    Ok((pair_place(v, u), next))
}

pub fn event<const FORM: u8>(scheme: &[u8], network: &mut [u8], v: usize, u: usize, a: usize) -> u8 {
    match judge_event::<FORM>(scheme, network, v, u, a) {
        Ok((place, next)) => {
            network[place] = next;
            0
        }
        Err(number) => number,
    }
}

/// Where a set writes.
fn judge_set(scheme: &[u8], network: &[u8], u: usize, r: usize, p: usize) -> Result<usize, u8> {
    let scheme = Scheme::read(scheme)?;
    if !is_valid(&scheme, network) {
        return Err(5);
    }
    if u >= scheme.members {
        return Err(6);
    }
    if r >= scheme.resources() {
        return Err(7);
    }
    if !offers(scheme.masks[r], p) {
        return Err(12);
    }
    Ok(scheme.pairs() + u * scheme.resources() + r)
}

pub fn set(scheme: &[u8], network: &mut [u8], u: usize, r: usize, p: usize) -> u8 {
    match judge_set(scheme, network, u, r, p) {
        Ok(place) => {
            network[place] = p as u8;
            0
        }
        Err(number) => number,
    }
}

fn judge_find<const FORM: u8>(scheme: &[u8], network: &[u8], v: usize, u: usize) -> Result<(), u8> {
    let scheme = Scheme::read(scheme)?;
    let network = Network::<FORM>::read(&scheme, network)?;
    network.both_members(v, u)?;
    network.found(v, u)
}

pub fn find<const FORM: u8>(scheme: &[u8], network: &[u8], v: usize, u: usize) -> u8 {
    answer(judge_find::<FORM>(scheme, network, v, u))
}

pub fn list<const FORM: u8>(scheme: &[u8], network: &[u8], v: usize, u: usize, output: &mut [u16]) -> Result<usize, u8> {
    let scheme = Scheme::read(scheme)?;
    let network = Network::<FORM>::read(&scheme, network)?;
    network.both_members(v, u)?;
    if output.len() < scheme.members {
        return Err(13);
    }
    network.found(v, u)?;
    network.allowed(u, TRAVERSAL, v)?;
    let friends = network.friends(u);
    for (place, friend) in output.iter_mut().zip(friends.iter()) {
        *place = *friend as u16;
    }
    Ok(friends.len())
}

fn judge_view<const FORM: u8>(scheme: &[u8], network: &[u8], v: usize, u: usize, o: usize) -> Result<(), u8> {
    let scheme = Scheme::read(scheme)?;
    let network = Network::<FORM>::read(&scheme, network)?;
    network.both_members(v, u)?;
    if o >= scheme.items {
        return Err(7);
    }
    network.found(v, u)?;
    network.allowed(u, 2 + scheme.primitives + o, v)
}

pub fn view<const FORM: u8>(scheme: &[u8], network: &[u8], v: usize, u: usize, o: usize) -> u8 {
    answer(judge_view::<FORM>(scheme, network, v, u, o))
}

pub fn suggest<const FORM: u8>(scheme: &[u8], network: &[u8], v: usize, c: usize, output: &mut [u16]) -> Result<usize, u8> {
    let scheme = Scheme::read(scheme)?;
    let network = Network::<FORM>::read(&scheme, network)?;
    if v >= scheme.members {
        return Err(6);
    }
    if output.len() < c {
        return Err(13);
    }
    let suggestions = network.suggestions(v);
    for (place, (_, m)) in output[..c].iter_mut().zip(&suggestions) {
        *place = *m as u16;
    }
    Ok(c.min(suggestions.len()))
}
