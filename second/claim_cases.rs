//! Claims: the two calls, each held against the second program; tables and lists
//! made for them; the promise that an accepted list keeps.

use crate::calls::Judged;
use crate::claim_lists::{self, Claim, Made, TEXT_WAYS, WAYS};
use crate::damage::TABLE_FIELDS;
use crate::dice::Dice;
use crate::lent::{needed, short, with_extra, Lent, LentTables, KINDS};
use crate::promises::factors;
use crate::second::claims::{self, ClaimRecord, MOST_PAIRS};
use crate::second::{self, Refusal, Tables, MOST_BYTES, MOST_ROWS};
use crate::{damage, refused_at, Comparison, NO_REFUSAL};

/// Small lists, and the table that they are about; tabs are shown as blanks, each LF
/// as a slash.
const SMALL_TABLE: &str =
    "H 3 1 5/Z 0 0/Z 1 0/Z 2 0/B 0 0 1 0/C 0 100 0 0 0 0 0 0 20000 0 0/C 1 200 0 0 0 0 0 0 0 20000 0/C 2 150 0 0 0 0 0 0 10007 10007 7/C 3 50 0 0 0 0 0 0 10000 0 0/C 4 9 0 0 0 0 0 0 4999 0 0/";
const SMALL_LISTS: [&str; 3] = ["Q 2 2 0 1 1 1/", "Q 2 2 1 1 0 1/Q 3 10 0 5/", "Q 3 1000 0 500/Q 2 2/"];

/// The lines, from 1, of a list that may be anything, in which a cited row is named.
const FAR_LINES: [usize; 8] = [2, MOST_ROWS, MOST_ROWS + 1, MOST_ROWS + 2, 256, 257, 1_000, 5_000];
/// Numbers of pairs that no claim has.
const BAD_COUNTS: [i64; 7] = [-1, 17, 18, i64::MIN, i64::MAX, 1 << 32, (1 << 32) + 1];

impl Comparison {
    // ----------------------------------------------------------- the calls

    fn claims(&mut self, d: &mut Dice, l: &mut LentTables, list: &[ClaimRecord]) -> Result<(), Refusal> {
        let reference = claims::judge_claims(l.part(), list);
        let mut lent = Lent::holding(d, list, list.len());
        let found = self.bridge.claims(l.lend(), &mut lent.whole);
        let found = self.said("keravnoth_claims", found, &|| l.shown());
        let Refusal { number, place, byte } = reference.err().unwrap_or(NO_REFUSAL);
        let wanted = Judged { number: number.into(), place, byte };
        self.count("claims", number);
        if found != wanted {
            let details = format!("library {found:?}\nreference {wanted:?}\nclaims {list:?}");
            self.fail("keravnoth_claims", &details, &l.shown());
        }
        if let Some(fault) = lent.fault("claims", &[]).or_else(|| l.fault()) {
            let details = format!("{fault}\nboth answer {wanted:?}");
            self.fail("keravnoth_claims", &details, &l.shown());
        }
        reference
    }

    fn published_text(&mut self, d: &mut Dice, l: &mut LentTables, list: &[u8], room: usize) -> Result<Vec<u8>, Refusal> {
        let reference = claims::published_text(l.part(), list, room);
        let mut lent = Lent::holding(d, list, list.len());
        let mut out = Lent::room(d, room);
        let found = self.bridge.published_text(l.lend(), &mut lent.whole, &mut out.whole);
        let found = self.said("keravnoth_published_text", found, &|| l.shown());
        let fault = lent.fault("list", &[]).or_else(|| l.fault());
        self.text_call("keravnoth_published_text", found, &out, &reference, fault, &|| {
            let mut shown = l.shown();
            shown.extend(format!("(room {room}, list {})\n", list[..list.len().min(2_000)].escape_ascii()).into_bytes());
            shown
        });
        reference
    }

    /// As many bytes as the published list needs.
    fn published(&mut self, d: &mut Dice, l: &mut LentTables, list: &[u8]) -> Result<Vec<u8>, Refusal> {
        let room = claims::published_text(l.part(), list, usize::MAX).map_or(9, |text| text.len());
        let more = d.below(3);
        self.published_text(d, l, list, room + more)
    }

    // ----------------------------------------------------------- the cases

    /// A table made for claims, with its true list: each way to have one wrong in
    /// turn, as records and as text.
    pub fn claim_tables(&mut self, number: u64) {
        self.kind = "claim table";
        self.number = number;
        let mut dice = Dice::for_case(self.seed, 20, number);
        let d = &mut dice;
        let made = claim_lists::made(d);
        self.true_list(d, &made);

        // few tables allow the last
        for way in [WAYS[(number % WAYS.len() as u64) as usize], "RAM some grains too low"] {
            let Some((t, list)) = claim_lists::in_a_way(d, &made, way) else { continue };
            let wanted = list.refused.and_then(|(number, place)| refused_at(number, place));
            let counts = with_extra(d, needed(t.header));
            let mut l = LentTables::new(d, &t, counts);
            let found = self.claims(d, &mut l, &list.records).err();
            let found_text = self.published(d, &mut l, &list.text).err();
            if found != wanted || found_text != wanted {
                let details = format!("claims, {way}: {found:?}, as text {found_text:?}, by the rules {wanted:?}");
                self.fail("keravnoth_claims", &details, &damage::plain_text(&t));
            }
            self.see(&format!("claims, {way}"));
            self.faults_before(d, &t, &list.records, &list.text, wanted);
        }
        self.list_texts(d, &made, number);
        self.long_lists(d, &made);
        self.bad_counts(d, &made);
    }

    /// The list is accepted and keeps its promise; room that is too short.
    fn true_list(&mut self, d: &mut Dice, made: &Made) {
        let t = &made.t;
        let mut l = LentTables::new(d, t, needed(t.header));
        let list = claim_lists::text(&made.claims);
        let records = claim_lists::records(d, &made.claims);
        if let Err(refusal) = self.claims(d, &mut l, &records) {
            self.fail("keravnoth_claims", &format!("a true list is refused: {refusal:?}\n{:?}", made.claims), &damage::plain_text(t));
        }
        if let Ok(text) = self.published(d, &mut l, &list) {
            self.same_positions(d, made, &text);
            let room = short(d, text.len());
            let _ = self.published_text(d, &mut l, &list, room);
            let most = made.claims.iter().map(|claim| claim.pairs.len()).max();
            self.see(&format!("true list, most pairs {}", most.unwrap_or(0)));
        }
        let tight = made.claims.iter().zip(&made.slack);
        for (claim, slack) in tight {
            self.see(match *slack {
                0 => "true claim, RAM equal",
                slack if slack < i128::from(claim.denominator) => "true claim, RAM within D grains",
                slack if slack < 100_000 => "true claim, RAM within a kW",
                _ => "true claim, RAM to spare",
            });
            if second::margin_of(t, claim.row as usize).ram < 0 {
                self.see("true claim, RAM below 0");
            }
            if claim.denominator == 1_000 || claim.pairs.iter().any(|(_, m)| *m == 1_000) {
                self.see("true claim, a number of 1000");
            }
        }
    }

    /// What is judged before claims, with each list: the header, lengths, records,
    /// borders given twice.
    fn faults_before(&mut self, d: &mut Dice, t: &Tables, records: &[ClaimRecord], text: &[u8], later: Option<Refusal>) {
        let mut bad = t.clone();
        let mut counts = needed(t.header);
        match d.below(4) {
            0 => damage::damage_header(d, &mut bad.header),
            1 => {
                let kind = d.below(KINDS.len());
                counts[kind] = short(d, counts[kind]);
            }
            2 => damage::damage_record(d, &mut bad),
            _ => {
                bad.header.borders = 2;
                bad.b.push(bad.b[0]);
                counts = needed(bad.header);
            }
        }
        let mut l = LentTables::new(d, &bad, counts);
        let number = later.map_or(0, |refusal| refusal.number);
        if let Err(Refusal { number: before @ (3 | 4 | 8), .. }) = self.claims(d, &mut l, records) {
            self.see(&format!("claims, {before} before {number}"));
        }
        if let Err(Refusal { number: before @ (3 | 4 | 8), .. }) = self.published_text(d, &mut l, text, 2_000) {
            self.see(&format!("published, {before} before {number}"));
        }
        if d.one_in(20) {
            let long = vec![b'Q'; MOST_BYTES + 1 + d.below(2)];
            let _ = self.published_text(d, &mut l, &long, 0);
            self.see("published, 1 before what is wrong with the tables");
        }
        // room comes last
        let mut l = LentTables::new(d, t, needed(t.header));
        let found = self.published_text(d, &mut l, text, 0).err();
        if later.is_some() && found != later {
            self.fail("keravnoth_published_text", "room comes before a claim", &damage::plain_text(t));
        }
        self.see(if later.is_some() { "published, claims before room" } else { "published, no room" });
    }

    /// Ways to write a list that only a text has, in turn.
    fn list_texts(&mut self, d: &mut Dice, made: &Made, number: u64) {
        let t = &made.t;
        let claim = &made.claims[d.below(made.claims.len())];
        let mut l = LentTables::new(d, t, needed(t.header));
        let (name, shown, place) = TEXT_WAYS[(number % TEXT_WAYS.len() as u64) as usize];
        let list = claim_lists::in_a_text(claim, shown);
        self.list_text(d, &mut l, name, &list, place.and_then(|place| refused_at(11, place)));
        if d.one_in(8) {
            let between = d.of(&["Q\n", "\n", "Q\t9999\t1\n"]);
            for lines in FAR_LINES {
                let list = claim_lists::long_text(claim, between, lines);
                self.list_text(d, &mut l, &format!("a row named in line {lines}"), &list, refused_at(11, 0));
            }
        }
        if d.one_in(16) {
            for (bytes, refused) in [(MOST_BYTES, refused_at(11, 1)), (MOST_BYTES + 1, refused_at(1, 0))] {
                let list = claim_lists::of_bytes(claim, bytes);
                self.list_text(d, &mut l, &format!("{bytes} bytes"), &list, refused);
            }
        }
    }

    /// More claims than there can be rows, as records and as text: what each of them
    /// names counts, wherever it stands.
    fn long_lists(&mut self, d: &mut Dice, made: &Made) {
        let t = &made.t;
        let named = d.one_in(2);
        let more = d.of(&[1, 10, 60, 800]);
        let claims = MOST_ROWS + 1 + d.below(more);
        let (list, place) = claim_lists::long_list(d, made, claims, named);
        let wanted = refused_at(11, place);
        let records = claim_lists::records(d, &list);
        let mut l = LentTables::new(d, t, needed(t.header));
        let found = self.claims(d, &mut l, &records).err();
        let found_text = self.published(d, &mut l, &claim_lists::text(&list)).err();
        if found != wanted || found_text != wanted {
            let details = format!("{claims} claims: {found:?}, as text {found_text:?}, by the rules {wanted:?}\n{list:?}");
            self.fail("keravnoth_claims", &details, &damage::plain_text(t));
        }
        let cited = |row: i64| list[place].pairs.iter().any(|(cited, _)| *cited == row);
        let far = list[MOST_ROWS..].iter().any(|claim| cited(claim.row));
        self.see(match (named, far) {
            (false, _) => "long list, no cited row named",
            (true, false) => "long list, a cited row named",
            (true, true) => "long list, a cited row named after 200 claims",
        });
    }

    /// A record with a number of pairs that no claim has names its row too.
    fn bad_counts(&mut self, d: &mut Dice, made: &Made) {
        let t = &made.t;
        let mut records = claim_lists::records(d, &made.claims);
        let mut bad = records[d.below(records.len())];
        let count = d.of(&BAD_COUNTS);
        (bad[0], bad[2]) = (made.claims[0].pairs[0].0, count);
        records.push(bad);
        let mut l = LentTables::new(d, t, needed(t.header));
        let found = self.claims(d, &mut l, &records).err();
        let wanted = refused_at(11, 0);
        if found != wanted {
            let details = format!("a record of {count} pairs names a cited row: {found:?}, by the rules {wanted:?}\n{records:?}");
            self.fail("keravnoth_claims", &details, &damage::plain_text(t));
        }
        self.see(&format!("claims, a record of {count} pairs names a cited row"));
    }

    fn list_text(&mut self, d: &mut Dice, l: &mut LentTables, name: &str, list: &[u8], wanted: Option<Refusal>) {
        let found = self.published(d, l, list).err();
        if found != wanted {
            let details = format!("list, {name}: {found:?}, by the rules {wanted:?}\n{}", list.escape_ascii());
            self.fail("keravnoth_published_text", &details, &l.shown());
        }
        self.see(&format!("list, {name}"));
    }

    /// Claims at random about any table, one that the extraction refuses too: a few, and
    /// sometimes more than there can be rows.
    pub fn claims_at_random(&mut self, d: &mut Dice, t: &Tables) {
        let few = d.of(&[0, 1, 1, 2, 4]);
        let list = claim_lists::at_random(d, t, few);
        self.judged_both_ways(d, t, &list);
        // dice of its own: what else the table is tried with stays as it was
        let mut own = Dice::for_case(self.seed, 24, self.number);
        let d = &mut own;
        if d.one_in(8) {
            let list = claim_lists::many_at_random(d, t);
            self.judged_both_ways(d, t, &list);
            self.see("claims at random, over 200");
        }
    }

    /// One judging, whichever way the claims came.
    fn judged_both_ways(&mut self, d: &mut Dice, t: &Tables, list: &[Claim]) {
        let records = claim_lists::records(d, list);
        let counts = with_extra(d, needed(t.header));
        let mut l = LentTables::new(d, t, counts);
        let found = self.claims(d, &mut l, &records);
        let text = self.published(d, &mut l, &claim_lists::text(list));
        if found.err() != text.err() {
            self.fail("keravnoth_published_text", "another judgement of the text", &damage::plain_text(t));
        }
    }

    /// A small list damaged at one place, in every way.
    pub fn each_list_damage(&mut self, number: usize) {
        self.kind = "place of a small list";
        self.number = number as u64;
        let mut dice = Dice::for_case(self.seed, 21, number as u64);
        let d = &mut dice;
        let t = second::read(&damage::as_text(SMALL_TABLE), second::ALL_ROOM).expect("a good table");
        let mut l = LentTables::new(d, &t, needed(t.header));
        let (list, place) = &self.list_places[number];
        let damaged = damage::each_damage_of(list, place, &TABLE_FIELDS);
        for (list, _) in damaged {
            if let Err(refusal) = self.published(d, &mut l, &list) {
                self.see(&format!("damaged list, {} at {}", refusal.number, refusal.place));
            } else {
                self.see("damaged list, taken");
            }
        }
    }

    // --------------------------------------------------------- the promise

    /// By the library's own published list: net positions that sum to zero stay
    /// within RAM on its rows exactly where they do on every kept row.
    fn same_positions(&mut self, d: &mut Dice, made: &Made, text: &[u8]) {
        let t = &made.t;
        let zones = t.header.zones;
        let line = |line: &[u8]| -> Option<(usize, i128)> {
            let line = std::str::from_utf8(line).ok()?;
            let [letter, row, ram] = line.split('\t').collect::<Vec<&str>>().try_into().ok()?;
            (letter == "D").then_some((row.parse().ok()?, ram.parse().ok()?))
        };
        let lines = text.strip_suffix(b"\n").map_or(vec![], |text| text.split(|byte| *byte == b'\n').collect());
        let Some(listed) = lines.into_iter().map(line).collect::<Option<Vec<(usize, i128)>>>() else {
            self.fail("keravnoth_published_text", "not D lines", text);
        };
        let kept: Vec<(usize, i128)> = (0..t.header.rows)
            .filter(|row| claim_lists::kept(t, *row))
            .map(|row| (row, second::margin_of(t, row).ram))
            .collect();
        let load = |row: usize, x: &[i64]| -> i128 {
            factors(t, row).iter().zip(x).map(|(factor, x)| i128::from(*factor) * i128::from(*x)).sum()
        };
        let allowed = |rows: &[(usize, i128)], x: &[i64]| rows.iter().all(|(row, ram)| load(*row, x) <= *ram);

        let mut positions: Vec<Vec<i64>> = Vec::new();
        if made.small {
            // every net position of so many kW in all but the last zone
            let most = [0, 0, 300, 20, 6][zones];
            let mut x = vec![-most; zones - 1];
            loop {
                positions.push(x.clone());
                let Some(zone) = x.iter().position(|position| *position < most) else { break };
                x[..zone].fill(-most);
                x[zone] += 1;
            }
        }
        // and some around where a claimed row ends
        for claim in &made.claims {
            let row = claim.row as usize;
            let ram = second::margin_of(t, row).ram;
            for _ in 0..6 {
                let x: Vec<i64> = (0..zones - 1).map(|_| d.within(-9, 9)).collect();
                let one = load(row, &with_last(&x));
                let times = if one == 0 { 0 } else { (ram / one) as i64 };
                for times in [times - 1, times, times + 1] {
                    positions.push(x.iter().map(|position| position * times).collect());
                }
            }
        }
        for x in positions {
            let x = with_last(&x);
            let (short, whole) = (allowed(&listed, &x), allowed(&kept, &x));
            if short != whole {
                let details = format!("net positions {x:?}: within the published list {short}, within every kept row {whole}");
                self.fail("keravnoth_published_text", &details, &damage::plain_text(t));
            }
            self.positions += 1;
            if whole {
                self.see("net positions within");
            } else {
                self.see("net positions beyond");
            }
            if made.claims.iter().any(|claim| load(claim.row as usize, &x) > second::margin_of(t, claim.row as usize).ram) {
                self.see("net positions beyond a claimed row");
            }
        }
    }
}

/// The positions and, for the last zone, what makes them sum to zero.
fn with_last(x: &[i64]) -> Vec<i64> {
    let mut x = x.to_vec();
    x.push(-x.iter().sum::<i64>());
    x
}

/// Where the small lists are damaged.
pub fn list_places() -> Vec<(Vec<u8>, damage::Place)> {
    let mut all = Vec::new();
    for (number, list) in SMALL_LISTS.into_iter().enumerate() {
        let list = damage::as_text(list);
        all.extend(damage::places_in(number, &list, &TABLE_FIELDS).into_iter().map(|place| (list.clone(), place)));
    }
    all
}

/// Cases that a run of the default size reaches at least so often.
pub fn wanted() -> Vec<(String, u64)> {
    let mut list: Vec<(String, u64)> = Vec::new();
    let mut add = |name: &str, count: u64| list.push((name.to_string(), count));
    for number in [0, 3, 4, 8, 11, 12] {
        add(&format!("claims {number}"), 100);
        add(&format!("keravnoth_published_text {number}"), 100);
    }
    add("keravnoth_published_text 1", 50);
    for way in WAYS {
        add(&format!("claims, {way}"), 40);
    }
    for (name, ..) in TEXT_WAYS {
        add(&format!("list, {name}"), 50);
    }
    for lines in FAR_LINES {
        add(&format!("list, a row named in line {lines}"), 50);
    }
    for name in ["no cited row named", "a cited row named", "a cited row named after 200 claims"] {
        add(&format!("long list, {name}"), 100);
    }
    for count in BAD_COUNTS {
        add(&format!("claims, a record of {count} pairs names a cited row"), 50);
    }
    add("claims at random, over 200", 200);
    for bytes in [MOST_BYTES, MOST_BYTES + 1] {
        add(&format!("list, {bytes} bytes"), 50);
    }
    for before in [3, 4, 8] {
        for number in [0, 11, 12] {
            add(&format!("claims, {before} before {number}"), 20);
            add(&format!("published, {before} before {number}"), 20);
        }
    }
    add("published, 1 before what is wrong with the tables", 20);
    add("published, claims before room", 500);
    add("published, no room", 50);
    for name in ["equal", "within D grains", "within a kW", "to spare", "below 0"] {
        add(&format!("true claim, RAM {name}"), 100);
    }
    add("true claim, a number of 1000", 50);
    add("true list, most pairs 1", 50);
    add(&format!("true list, most pairs {MOST_PAIRS}"), 5);
    for number in [11, 12] {
        for place in [0, 1] {
            add(&format!("damaged list, {number} at {place}"), 20);
        }
    }
    add("damaged list, taken", 20);
    for name in ["within", "beyond", "beyond a claimed row"] {
        add(&format!("net positions {name}"), 10_000);
    }
    list
}
