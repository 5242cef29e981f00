//! The comparison itself: a call of ours is put beside its judges' answers, counted, and where they differ reported
//! together with the simplest input that still shows it.
//!
//! A new call needs a `Case`; a suite keeps one tally a call and changes one case in place, so that nothing is allocated
//! between two calls that agree.

use crate::answer::{Answer, Hex};
use crate::area::{Area, Areas};
use crate::by::By;
use std::fmt::{self, Display};
use std::ops::AddAssign;
use std::sync::atomic::{AtomicU64, Ordering};

/// The names of the judges.
pub const CRATE: &str = "tpm2-protocol";
pub const RULES: &str = "document 01";
pub const TSS: &str = "tpm2-tss";

/// A call with its input. It is displayed as on the fixed list: the call's name, then what it is given.
pub trait Case: Clone + Display + 'static {
    /// Who is asked about this kind of call.
    const JUDGES: &'static [Judge<Self>];

    /// Whether it is a writer of frames: no other call may come to 7, whatever the judges say.
    const WRITES_FRAMES: bool = false;

    /// Brings `answer` to the state before the call, with all that is lent.
    fn preset(&self, answer: &mut Answer);

    /// Makes our call on what `answer` lends.
    fn ours(&self, answer: &mut Answer);

    /// Inputs one step simpler than this one, the boldest step first.
    fn simpler(&self) -> impl Iterator<Item = Self>;
}

/// Someone who knows the right answer.
pub struct Judge<C> {
    name: &'static str,
    says: Says<C>,
}

/// Turns the preset answer into the right one; false where this judge cannot be asked about the input.
pub type Says<C> = fn(&C, &mut Answer) -> bool;

impl<C> Judge<C> {
    /// The crate.
    pub const fn tpm2_protocol(says: Says<C>) -> Self {
        Self { name: CRATE, says }
    }

    /// Document 01's rules, written out a second time.
    pub const fn document_01(says: Says<C>) -> Self {
        Self { name: RULES, says }
    }

    /// The marshalling library of tpm2-tss.
    pub const fn tpm2_tss(says: Says<C>) -> Self {
        Self { name: TSS, says }
    }

    /// Whether it names the area of a refusal, which is document 02's and no other's.
    fn names_areas(&self) -> bool {
        self.name == RULES
    }

    /// Whether our answer is this judge's: as a whole, or where it names no areas but for that of a refusal.
    pub fn agrees(&self, ours: &Answer, theirs: &Answer) -> bool {
        if self.names_areas() { ours == theirs } else { ours.is_but_for_area(theirs) }
    }
}

/// The number of the refusal of a length beyond a limit.
pub const TOO_LONG: u32 = 8;

/// The number of the refusal of a number that is too large for its field.
pub const TOO_LARGE: u32 = 7;

/// Mismatches of one call that are printed; the rest are only counted.
pub const PRINTED: u64 = 5;

/// How often a judge spoke, and how often against us.
struct Voice {
    judge: &'static str,
    spoke: u64,
    against: u64,
}

/// What some calls came to.
#[derive(Clone, Copy, Default)]
pub struct Count {
    pub calls: u64,
    /// The calls that the crate judged, alone or with document 01's rules beside it, and those that tpm2-tss did. The others
    /// were judged by those rules alone.
    by_crate: u64,
    pub by_tss: u64,
    /// The calls that are no writers of frames, and those of them that came to 7.
    pub not_writers: u64,
    too_large: u64,
    pub mismatches: u64,
    /// Answers that the crate contradicts, that document 01's rules do, and that tpm2-tss does.
    pub against_crate: u64,
    pub against_rules: u64,
    pub against_tss: u64,
    /// The refusals whose area is judged.
    areas: Areas,
}

impl AddAssign for Count {
    fn add_assign(&mut self, more: Self) {
        self.calls += more.calls;
        self.by_crate += more.by_crate;
        self.by_tss += more.by_tss;
        self.not_writers += more.not_writers;
        self.too_large += more.too_large;
        self.mismatches += more.mismatches;
        self.against_crate += more.against_crate;
        self.against_rules += more.against_rules;
        self.against_tss += more.against_tss;
        self.areas += more.areas;
    }
}

impl Display for Count {
    fn fmt(&self, f: &mut fmt::Formatter) -> fmt::Result {
        write!(f, "{} calls, {} mismatches: ", self.calls, self.mismatches)?;
        let alone = self.calls - self.by_crate - self.by_tss;
        write!(f, "{} judged by {CRATE}, {alone} by {RULES} alone", self.by_crate)?;
        if self.by_tss > 0 {
            write!(f, ", {} by {TSS}", self.by_tss)?;
        }
        if self.too_large > 0 { write!(f, "; {} came to 7 and are no writers", self.too_large) } else { Ok(()) }
    }
}

/// Counts by the rules that the calls were given.
#[derive(Clone, Copy, Default)]
pub struct Counts([Count; By::COUNT]);

impl Counts {
    pub fn add(&mut self, tally: &Tally) {
        self.0[tally.by.place()] += tally.count();
    }

    pub fn all(&self) -> Count {
        self.of(|_| true)
    }

    /// Those of some rules.
    fn of(&self, which: impl Fn(By) -> bool) -> Count {
        let mut sum = Count::default();
        By::all().iter().zip(self.0).filter(|(by, _)| which(**by)).for_each(|(_, count)| sum += count);
        sum
    }

    /// Prints a line for each group of rules by which calls were made, and one for all; where none but the Rust's at the
    /// crate's table were named, the last alone. Then one for the areas of refusals, where there is a judge of them.
    pub fn tell(&self, whose: &str) {
        let all = self.all();
        if self.of(|by| by != By::NO_RULES).calls > 0 {
            let groups = By::GROUPS.map(|(phrase, which)| (phrase, self.of(which)));
            let made = groups.iter().filter(|(_, count)| count.calls > 0);
            made.for_each(|(phrase, count)| println!("{whose}: {phrase} {count}"));
        }
        println!("{whose}: in all {all}");
        if !all.areas.is_empty() {
            println!("{whose}: refusals by their area, judged by {RULES}: {}", all.areas);
        }
    }
}

impl AddAssign for Counts {
    fn add_assign(&mut self, more: Self) {
        self.0.iter_mut().zip(more.0).for_each(|(mine, more)| *mine += more);
    }
}

/// The count of one call.
pub struct Tally {
    name: String,
    by: By,
    writes_frames: bool,
    calls: u64,
    /// Those that refuse a length.
    too_long: u64,
    /// Those that came to 7 and may not.
    too_large: u64,
    /// The refusals whose area is judged.
    areas: Areas,
    mismatches: u64,
    /// One for each judge, in their order.
    voices: Vec<Voice>,
    ours: Answer,
    theirs: Answer,
}

impl Tally {
    /// Of a call that takes no rules.
    pub fn new<C: Case>(name: impl Into<String>) -> Self {
        Self::of::<C>(name, By::NO_RULES)
    }

    /// Of a call by these rules.
    pub fn of<C: Case>(name: impl Into<String>, by: By) -> Self {
        Self {
            name: name.into() + &by.words(),
            by,
            writes_frames: C::WRITES_FRAMES,
            calls: 0,
            too_long: 0,
            too_large: 0,
            areas: Areas::default(),
            mismatches: 0,
            voices: C::JUDGES.iter().map(|judge| Voice { judge: judge.name, spoke: 0, against: 0 }).collect(),
            ours: Answer::new(),
            theirs: Answer::new(),
        }
    }

    pub fn calls(&self) -> u64 {
        self.calls
    }

    /// The calls that were refused by the number of a length beyond a limit.
    pub fn too_long(&self) -> u64 {
        self.too_long
    }

    pub fn areas(&self) -> Areas {
        self.areas
    }

    /// What may not be 7 and is counts as a mismatch with document 01's rules.
    pub fn count(&self) -> Count {
        let mut count = Count {
            calls: self.calls,
            not_writers: if self.writes_frames { 0 } else { self.calls },
            too_large: self.too_large,
            mismatches: self.mismatches + self.too_large,
            against_rules: self.too_large,
            areas: self.areas,
            ..Count::default()
        };
        for voice in &self.voices {
            match voice.judge {
                CRATE => {
                    count.by_crate += voice.spoke;
                    count.against_crate += voice.against;
                }
                TSS => {
                    count.by_tss += voice.spoke;
                    count.against_tss += voice.against;
                }
                _ => count.against_rules += voice.against,
            }
        }
        count
    }

    /// Makes the call once and holds it to every judge that speaks. It counts as one mismatch, whoever contradicts, and
    /// is reported beside the first that does.
    pub fn check<C: Case>(&mut self, case: &C) {
        self.ask_ours(case);
        self.came_to(self.ours.said.number());
        let (mut judged, mut first) = (false, None);
        for (i, judge) in C::JUDGES.iter().enumerate() {
            if !self.ask(judge, case) {
                continue;
            }
            judged = true;
            self.voices[i].spoke += 1;
            if judge.names_areas() {
                self.in_area(self.theirs.said.area());
            }
            if !judge.agrees(&self.ours, &self.theirs) {
                self.voices[i].against += 1;
                first = first.or(Some(judge));
            }
        }
        assert!(judged, "nobody judges {case}");
        if let Some(judge) = first {
            self.mismatch(case, judge);
        }
    }

    /// Adds a call that the suite itself has made and held to the judges that spoke, none of whom contradicts its answer.
    /// The written rules are among them.
    pub fn agreed(&mut self, answer: &Answer, spoke: impl Iterator<Item = bool>) {
        self.came_to(answer.said.number());
        self.in_area(answer.said.area());
        self.voices.iter_mut().zip(spoke).for_each(|(voice, spoke)| voice.spoke += u64::from(spoke));
    }

    /// Counts a call by the number that it came to.
    fn came_to(&mut self, number: u32) {
        self.calls += 1;
        self.too_long += u64::from(number == TOO_LONG);
        self.too_large += u64::from(number == TOO_LARGE && !self.writes_frames);
    }

    /// Counts a call by the area of its refusal.
    fn in_area(&mut self, area: Option<Area>) {
        area.into_iter().for_each(|area| self.areas.add(area, 1));
    }

    /// Adds calls that the suite itself has made and held to the first judge, with each that came to 7 among the mismatches.
    /// So many of the others were refused, and held to have no area.
    pub fn add(&mut self, calls: u64, mismatches: u64, refused: u64) {
        self.calls += calls;
        self.mismatches += mismatches;
        self.areas.add(Area::None, refused);
        self.voices[0].spoke += calls;
        self.voices[0].against += mismatches;
    }

    /// Adds what another thread counted of the same call.
    pub fn merge(&mut self, other: &Self) {
        self.calls += other.calls;
        self.too_long += other.too_long;
        self.too_large += other.too_large;
        self.areas += other.areas;
        self.mismatches += other.mismatches;
        for (mine, more) in self.voices.iter_mut().zip(&other.voices) {
            mine.spoke += more.spoke;
            mine.against += more.against;
        }
    }

    /// Counts a mismatch that shows in the calls as a whole and in none of them alone, as one of the first judge's.
    pub fn differs_in_all(&mut self, how: &str) {
        self.differs_from(self.voices[0].judge, how);
    }

    /// Counts a mismatch of a call that no case holds, as one of a judge's.
    pub fn differs_from(&mut self, judge: &str, how: &str) {
        self.mismatches += 1;
        let voice = self.voices.iter_mut().find(|voice| voice.judge == judge);
        voice.expect("the judge is asked about this call").against += 1;
        println!("mismatch: {}: {how}", self.name);
    }

    fn ask_ours<C: Case>(&mut self, case: &C) {
        answer_ours(case, &mut self.ours);
    }

    fn ask<C: Case>(&mut self, judge: &Judge<C>, case: &C) -> bool {
        case.preset(&mut self.theirs);
        (judge.says)(case, &mut self.theirs)
    }

    fn differs<C: Case>(&mut self, case: &C, judge: &Judge<C>) -> bool {
        self.ask_ours(case);
        self.ask(judge, case) && !judge.agrees(&self.ours, &self.theirs)
    }

    fn mismatch<C: Case>(&mut self, case: &C, judge: &Judge<C>) {
        self.mismatches += 1;
        if self.mismatches > PRINTED {
            return;
        }
        // no other thread prints amid the report
        let _whole = std::io::stdout().lock();
        println!("mismatch: {} against {}", self.name, judge.name);
        // brings both answers back: other judges were asked since
        self.differs(case, judge);
        self.show("input", case, judge);
        let shrunk = self.shrunk(case, judge);
        // leaves both answers to the shrunk input in place
        assert!(self.differs(&shrunk, judge), "shrinking lost the mismatch: a call does not repeat its answer");
        self.show("shrunk", &shrunk, judge);
        if self.mismatches == PRINTED {
            println!("further mismatches of {} are only counted", self.name);
        }
    }

    fn show<C: Case>(&self, what: &str, case: &C, judge: &Judge<C>) {
        println!("  {what}: {case}");
        println!("    ours: {}", self.ours);
        println!("    {}: {}", judge.name, self.theirs);
    }

    /// Goes on to a simpler input as long as one still differs.
    fn shrunk<C: Case>(&mut self, case: &C, judge: &Judge<C>) -> C {
        let mut best = case.clone();
        loop {
            let next = best.simpler().find(|next| self.differs(next, judge));
            match next {
                Some(next) => best = next,
                None => return best,
            }
        }
    }
}

fn answer_ours<C: Case>(case: &C, answer: &mut Answer) {
    case.preset(answer);
    case.ours(answer);
}

/// Our answer to a case, held to nothing.
pub fn ours<C: Case>(case: &C) -> Answer {
    let mut answer = Answer::new();
    answer_ours(case, &mut answer);
    answer
}

impl Display for Tally {
    fn fmt(&self, f: &mut fmt::Formatter) -> fmt::Result {
        write!(f, "{}: {}", self.name, self.count())
    }
}

/// Lines of the fixed list, and those among them whose answer is the crate's.
static LISTED: [AtomicU64; 2] = [const { AtomicU64::new(0) }; 2];

/// Prints a case with the answer of its first judge that speaks, the area of a refusal, and the later bytes of its first slice
/// if it writes: one line of the fixed list. Where no judge is at hand there is no line.
pub fn list<C: Case>(case: &C, writes: bool) {
    let mut answer = Answer::new();
    let speaks = |judge: &&Judge<C>| {
        case.preset(&mut answer);
        (judge.says)(case, &mut answer)
    };
    let Some(judge) = C::JUDGES.iter().find(speaks) else {
        return;
    };
    LISTED[0].fetch_add(1, Ordering::Relaxed);
    LISTED[1].fetch_add((judge.name == CRATE).into(), Ordering::Relaxed);
    let values: String = answer.values().map(|value| format!(" {value}")).collect();
    let later = if writes { format!(" ; {}", Hex(answer.bytes(0))) } else { String::new() };
    let area = if answer.said.number() == 0 { String::new() } else { format!(" {}", area_of(case)) };
    println!("{case} = {}{values}{area}{later}", answer.said.number());
}

/// The area of a refused case, which the written rules alone tell.
fn area_of<C: Case>(case: &C) -> Area {
    let mut answer = Answer::new();
    case.preset(&mut answer);
    let rules = C::JUDGES.iter().find(|judge| judge.name == RULES && (judge.says)(case, &mut answer));
    rules.and_then(|_| answer.said.area()).expect("the rules name the area of every refusal that is listed")
}

/// How many lines were listed, and whose answers they are.
pub fn listed() -> String {
    let [lines, by_crate] = LISTED.each_ref().map(|count| count.load(Ordering::Relaxed));
    format!("{lines} lines: {by_crate} answers of {CRATE}, {} of {RULES} alone", lines - by_crate)
}
